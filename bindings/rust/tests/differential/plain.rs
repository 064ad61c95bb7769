//! Plain decoding from the specification's definitions alone, by walks over all codewords: nothing here is shared with the library or
//! its wrapper.
use std::collections::HashMap;

pub const MAX_PLACES: u32 = 32;
pub const MAX_ROWS: u32 = 20;
const MAX_WORDS: usize = 512;
const FAR: u8 = 255;

/// The number of a cause and the value beside it.
pub type Refused = (u32, usize);

fn refused<T>(number: u32, value: usize) -> Result<T, Refused> {
    Err((number, value))
}

/// The first word with a one outside its places.
pub fn outside(words: &[u32], places: u32) -> Option<usize> {
    words.iter().position(|&w| (w as u64) >> places != 0)
}

/// An accepted matrix and all its codewords, by message.
pub struct Code {
    n: u32,
    k: u32,
    pub codewords: Vec<u32>,
}

fn sums(rows: &[u32]) -> Vec<u32> {
    let mut all = vec![0];
    for &row in rows {
        let more: Vec<u32> = all.iter().map(|c| c ^ row).collect();
        all.extend(more);
    }
    all
}

/// Causes 1 to 4.
pub fn accept(n: u32, k: u32, rows: &[u32]) -> Result<Code, Refused> {
    if !(2..=MAX_PLACES).contains(&n) || !(1..=MAX_ROWS).contains(&k) || n < k + 1 || n > k + 12 {
        return refused(1, 0);
    }
    if rows.len() != k as usize {
        return refused(2, 0);
    }
    if let Some(i) = outside(rows, n) {
        return refused(3, i);
    }
    match (0..rows.len()).find(|&i| sums(&rows[..i]).contains(&rows[i])) {
        Some(i) => refused(4, i),
        None => Ok(Code { n, k, codewords: sums(rows) }),
    }
}

impl Code {
    fn nonzero(&self) -> impl Iterator<Item = u32> + '_ {
        self.codewords.iter().copied().filter(|&c| c != 0)
    }

    pub fn dmin(&self) -> u32 {
        self.nonzero().map(u32::count_ones).min().unwrap()
    }

    /// Of the nonzero codewords the lightest, of several the smallest number.
    pub fn lightest(&self) -> u32 {
        self.nonzero().min_by_key(|c| (c.count_ones(), *c)).unwrap()
    }

    /// The leftmost ones of the codewords, rising.
    fn pivots(&self) -> Vec<u32> {
        let leftmost = self.nonzero().fold(0u32, |places, c| places | 1 << c.trailing_zeros());
        (0..self.n).filter(|p| leftmost >> p & 1 == 1).collect()
    }

    /// The codeword that has a one at pivot i and at no other pivot.
    pub fn reduced(&self) -> Vec<u32> {
        let pivots = self.pivots();
        let all: u32 = pivots.iter().map(|p| 1 << p).sum();
        pivots.iter().map(|p| self.nonzero().find(|c| c & all == 1 << p).unwrap()).collect()
    }

    fn free(&self) -> Vec<u32> {
        let pivots = self.pivots();
        (0..self.n).filter(|p| !pivots.contains(p)).collect()
    }

    pub fn checks(&self) -> Vec<u32> {
        let (pivots, reduced) = (self.pivots(), self.reduced());
        let row = |f: u32| -> u32 { pivots.iter().zip(&reduced).map(|(p, r)| (r >> f & 1) << p).sum::<u32>() | 1 << f };
        self.free().into_iter().map(row).collect()
    }

    pub fn weight_counts(&self) -> Vec<u32> {
        let mut counts = vec![0; self.n as usize + 1];
        for c in &self.codewords {
            counts[c.count_ones() as usize] += 1;
        }
        counts
    }

    /// The lightest error pattern of a received word, of several the smallest number: a walk over all codewords.
    fn pattern(&self, w: u32) -> u32 {
        self.codewords.iter().map(|c| c ^ w).min_by_key(|e| (e.count_ones(), *e)).unwrap()
    }

    /// The leaders by syndrome. The word with a one at free place j for each one j of the syndrome has that syndrome.
    fn leaders(&self) -> Vec<u32> {
        let free = self.free();
        let word = |s: u32| free.iter().enumerate().map(|(j, f)| (s >> j & 1) << f).sum();
        (0..1 << (self.n - self.k)).map(|s| self.pattern(word(s))).collect()
    }

    /// How many words are tried until every syndrome has its leader: of all words of n places, by weight and then by number, those
    /// up to the leader that comes last.
    fn tried(&self) -> u32 {
        let last = self.leaders().into_iter().max_by_key(|e| (e.count_ones(), *e)).unwrap();
        (0..1u64 << self.n).map(|v| v as u32).filter(|v| (v.count_ones(), *v) <= (last.count_ones(), last)).count() as u32
    }

    /// Codeword and count, within the radius or, without one, nearest.
    fn decoded(&self, radius: Option<u32>, w: u32) -> (u32, u8) {
        let e = self.pattern(w);
        match radius {
            Some(r) if e.count_ones() > r => (w, FAR),
            _ => (w ^ e, e.count_ones() as u8),
        }
    }
}

/// Causes 6 to 8.
fn lists(words: &[u32], places: u32, slots: usize) -> Result<(), Refused> {
    if words.len() > MAX_WORDS {
        return refused(6, 0);
    }
    if let Some(i) = outside(words, places) {
        return refused(7, i);
    }
    if slots < words.len() {
        return refused(8, 0);
    }
    Ok(())
}

/// Cause 9.
fn room(code: &Code, slots: usize) -> Result<(), Refused> {
    if slots < 1 << (code.n - code.k) {
        return refused(9, 0);
    }
    Ok(())
}

/// The check rows, and the number of words tried.
pub fn leaders(n: u32, k: u32, rows: &[u32], list: &mut [u32]) -> Result<(Vec<u32>, u32), Refused> {
    let code = accept(n, k, rows)?;
    room(&code, list.len())?;
    list.iter_mut().zip(code.leaders()).for_each(|(slot, leader)| *slot = leader);
    Ok((code.checks(), code.tried()))
}

pub fn encode(n: u32, k: u32, rows: &[u32], messages: &[u32], out: &mut [u32]) -> Result<(), Refused> {
    let code = accept(n, k, rows)?;
    lists(messages, k, out.len())?;
    for (slot, &u) in out.iter_mut().zip(messages) {
        *slot = code.codewords[u as usize];
    }
    Ok(())
}

pub fn message(n: u32, k: u32, rows: &[u32], words: &[u32], out: &mut [u32]) -> Result<(), Refused> {
    let code = accept(n, k, rows)?;
    lists(words, n, out.len())?;
    let read: Vec<Option<usize>> = words.iter().map(|w| code.codewords.iter().position(|c| c == w)).collect();
    if let Some(i) = read.iter().position(Option::is_none) {
        return refused(10, i);
    }
    for (slot, message) in out.iter_mut().zip(read.into_iter().flatten()) {
        *slot = message as u32;
    }
    Ok(())
}

/// The lists that a decode writes.
pub struct Lists<'a> {
    pub out: &'a mut [u32],
    pub counts: &'a mut [u8],
    pub work: &'a mut [u32],
}

/// Causes 1 to 5.
pub fn admit(n: u32, k: u32, rows: &[u32], radius: Option<u32>) -> Result<Code, Refused> {
    let code = accept(n, k, rows)?;
    match radius {
        Some(r) if 2 * r as u64 + 1 > code.dmin() as u64 => refused(5, 0),
        _ => Ok(code),
    }
}

pub fn decode(n: u32, k: u32, rows: &[u32], radius: Option<u32>, words: &[u32], to: Lists) -> Result<Code, Refused> {
    let code = admit(n, k, rows, radius)?;
    lists(words, n, to.out.len().min(to.counts.len()))?;
    room(&code, to.work.len())?;
    for (i, &w) in words.iter().enumerate() {
        (to.out[i], to.counts[i]) = code.decoded(radius, w);
    }
    for (slot, leader) in to.work.iter_mut().zip(code.leaders()) {
        *slot = leader;
    }
    Ok(code)
}

/// P then the identity: row 0 of P, its rotations to the left with a 1, and eleven ones with a 0.
pub fn golay_codewords() -> Vec<u32> {
    let digits = |text: &str| -> u32 { text.bytes().enumerate().map(|(i, b)| ((b - b'0') as u32) << i).sum() };
    let first = "10001110110";
    let mut rows: Vec<u32> = (0..11).map(|i| digits(&format!("{}{}1", &first[i..], &first[..i]))).collect();
    rows.push(digits("111111111110"));
    sums(&rows.iter().enumerate().map(|(i, p)| p | 1 << (12 + i)).collect::<Vec<_>>())
}

/// Codeword and count within three places, by a walk over the 4,096 codewords.
pub fn golay_decoded(codewords: &[u32], w: u32) -> (u32, u8) {
    match codewords.iter().find(|&&c| (c ^ w).count_ones() <= 3) {
        Some(&c) => (c, (c ^ w).count_ones() as u8),
        None => (w, FAR),
    }
}

/// A code given by its columns: the number of check places, and the columns of the data places.
pub struct SplitCode {
    pub checks: u32,
    pub columns: Vec<u8>,
}

/// The code of so many data bits; none where there is no such width.
pub fn width_code(width: u32) -> Option<SplitCode> {
    let (checks, more): (u32, &[u8]) = match width {
        16 => (6, &[]),
        32 => (7, &[]),
        64 => (8, &[0x1F, 0x3E, 0x7C, 0xF8, 0xF1, 0xE3, 0xC7, 0x8F]),
        _ => return None,
    };
    let threes = (0..1u32 << checks).map(|c| c as u8).filter(|c| c.count_ones() == 3);
    Some(SplitCode { checks, columns: threes.chain(more.iter().copied()).take(width as usize).collect() })
}

impl SplitCode {
    pub fn syndrome(&self, check: u8, data: u64) -> u8 {
        (0..self.columns.len()).filter(|i| data >> i & 1 == 1).fold(check, |s, i| s ^ self.columns[i])
    }

    /// Whether the parts have no one beyond their places.
    pub fn holds(&self, check: u8, data: u64) -> bool {
        u32::from(check) >> self.checks == 0 && u128::from(data) >> self.columns.len() == 0
    }

    /// Word and count: the word, else the words with one place changed, are tried for a codeword.
    pub fn decoded(&self, check: u8, data: u64) -> (u8, u64, u8) {
        let codeword = |c: u8, d: u64| self.syndrome(c, d) == 0;
        if codeword(check, data) {
            return (check, data, 0);
        }
        for i in 0..self.checks {
            if codeword(check ^ 1 << i, data) {
                return (check ^ 1 << i, data, 1);
            }
        }
        for i in 0..self.columns.len() {
            if codeword(check, data ^ 1 << i) {
                return (check, data ^ 1 << i, 1);
            }
        }
        (check, data, FAR)
    }
}

/// A sheet that was read.
struct Sheet {
    n: u32,
    k: u32,
    rows: Vec<u32>,
    radius: Option<u32>,
    words: Vec<u32>,
}

fn read_sheet(sheet: &[u8]) -> Result<Sheet, Refused> {
    if sheet.len() > 4096 {
        return refused(12, 4096);
    }
    let mut fields: HashMap<u8, &[u8]> = HashMap::new();
    let (mut at, mut last) = (0, 0);
    while at < sheet.len() {
        let left = &sheet[at..];
        if left.len() < 3 {
            return refused(12, at);
        }
        let (tag, length) = (left[0], left[1] as usize * 256 + left[2] as usize);
        if !(1..=5).contains(&tag) || tag <= last {
            return refused(13, at);
        }
        if left.len() - 3 < length {
            return refused(12, at);
        }
        let right = if tag == 3 || tag == 5 { length % 4 == 0 } else { length == 1 };
        if !right {
            return refused(12, at);
        }
        fields.insert(tag, &left[3..3 + length]);
        last = tag;
        at += 3 + length;
    }
    if [1, 2, 3, 5].iter().any(|tag| !fields.contains_key(tag)) {
        return refused(13, sheet.len());
    }
    let words = |tag: u8| fields[&tag].chunks(4).map(|b| u32::from_le_bytes(b.try_into().unwrap())).collect();
    Ok(Sheet {
        n: fields[&1][0] as u32,
        k: fields[&2][0] as u32,
        rows: words(3),
        radius: fields.get(&4).map(|f| f[0] as u32),
        words: words(5),
    })
}

/// What the run prints for a sheet that is not refused.
pub fn lines(sheet: &[u8]) -> Result<String, Refused> {
    let s = read_sheet(sheet)?;
    let mut out = vec![0; MAX_WORDS];
    let mut counts = vec![0; MAX_WORDS];
    let mut work = vec![0; 4096];
    let to = Lists { out: &mut out, counts: &mut counts, work: &mut work };
    let code = decode(s.n, s.k, &s.rows, s.radius, &s.words, to)?;
    let d = code.dmin();
    let mut text = format!("{} {} {} {}\n", s.n, s.k, d, (d - 1) / 2);
    for i in 0..s.words.len() {
        text.extend((0..s.n).map(|p| if out[i] >> p & 1 == 1 { '1' } else { '0' }));
        text += &if counts[i] == FAR { " far\n".to_string() } else { format!(" {}\n", counts[i]) };
    }
    Ok(text + &closing(&counts[..s.words.len()]))
}

/// The closing line: how many words ended clean, mended and far, and the sum of the counts of the mended ones.
fn closing(counts: &[u8]) -> String {
    let mended: Vec<u32> = counts.iter().filter(|&&c| c != 0 && c != FAR).map(|&c| c.into()).collect();
    let of = |count: u8| counts.iter().filter(|&&c| c == count).count();
    format!("clean {} mended {} far {} places {}\n", of(0), mended.len(), of(FAR), mended.iter().sum::<u32>())
}

/// What the run prints for a sheet.
pub fn output(sheet: &[u8]) -> String {
    lines(sheet).unwrap_or_else(|(number, value)| format!("refused {number} {value}\n"))
}
