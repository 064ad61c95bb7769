//! Random matrices, words and lists: mostly accepted ones, else with one or several things wrong.
use crate::plain::{MAX_PLACES, MAX_ROWS};
use crate::random::Random;

#[derive(Debug)]
pub struct Matrix {
    pub n: u32,
    pub k: u32,
    pub rows: Vec<u32>,
}

/// Adds a row to another, so many times or fewer: the code stays.
pub fn add_rows(r: &mut Random, rows: &mut [u32], times: usize) {
    for _ in 0..times {
        let (i, j) = (r.below(rows.len()), r.below(rows.len()));
        if i != j {
            rows[i] ^= rows[j];
        }
    }
}

/// Independent rows: a one at a place of its own in each, then rows added to rows.
pub fn independent(r: &mut Random, n: u32, k: usize) -> Vec<u32> {
    let mut places: Vec<u32> = (0..n).collect();
    for i in 0..k {
        let j = i + r.below(n as usize - i);
        places.swap(i, j);
    }
    let own: u32 = places[..k].iter().map(|p| 1 << p).sum();
    let mut rows: Vec<u32> = places[..k].iter().map(|p| (r.word(n) & !own) | 1 << p).collect();
    let times = r.below(3 * k);
    add_rows(r, &mut rows, times);
    rows
}

/// Any n or k: small, or at a limit, or large.
fn any_number(r: &mut Random) -> u32 {
    match r.below(4) {
        0 => [0, 1, 2, 12, 13, 14, 19, 20, 21, 31, 32, 33, u32::MAX - 11, u32::MAX][r.below(14)],
        _ => r.below(34) as u32,
    }
}

/// Makes a row the sum of some rows before it, be it none.
fn make_dependent(r: &mut Random, rows: &mut [u32]) {
    let i = r.below(rows.len());
    let u = r.word(MAX_ROWS);
    rows[i] = (0..i).filter(|j| u >> j & 1 == 1).fold(0, |sum, j| sum ^ rows[j]);
}

/// A matrix of n from 2 to `longest`.
pub fn matrix(r: &mut Random, longest: u32) -> Matrix {
    let n = 2 + r.below(longest as usize - 1) as u32;
    matrix_of(r, n)
}

/// Mostly short codes, so that many of them can be walked; every 400th has 29 places to the limit.
pub fn matrix_in(r: &mut Random, round: usize) -> Matrix {
    match round {
        _ if round % 400 == 0 => {
            let n = 29 + r.below(MAX_PLACES as usize - 28) as u32;
            matrix_of(r, n)
        }
        _ if round % 5 == 0 => matrix(r, 28),
        _ => matrix(r, 16),
    }
}

/// A random matrix at the limit of n and k: the identity, and any check places.
pub fn largest(r: &mut Random) -> Matrix {
    let rows = (0..MAX_ROWS).map(|i| 1 << i | r.word(MAX_PLACES) >> MAX_ROWS << MAX_ROWS).collect();
    Matrix { n: MAX_PLACES, k: MAX_ROWS, rows }
}

/// A matrix of this n, mostly.
fn matrix_of(r: &mut Random, mut n: u32) -> Matrix {
    let (least, most) = (n.saturating_sub(12).max(1), (n - 1).min(MAX_ROWS));
    let mut k = least + r.below((most - least + 1) as usize) as u32;
    let mut rows = match r.below(8) {
        0 => (0..k).map(|_| r.word(n)).collect(),
        _ => independent(r, n, k as usize),
    };
    if r.one_in(16) {
        make_dependent(r, &mut rows);
    }
    spoil(r, &mut rows, n);
    match r.below(40) {
        0 => rows.push(r.word(n)),
        1 => rows.truncate(r.below(k as usize)),
        2 => n = any_number(r),
        3 => k = any_number(r),
        _ => {}
    }
    Matrix { n, k, rows }
}

/// How many words: none, a few, about sixteen, from where on they are summed by tables, some dozens, or about the limit.
pub fn how_many(r: &mut Random) -> usize {
    match r.below(16) {
        0 => 0,
        1 => 511 + r.below(3),
        2 | 3 => 14 + r.below(5),
        4 => 19 + r.below(60),
        _ => 1 + r.below(12),
    }
}

/// Puts a one outside the places of one or two words, now and then.
pub fn spoil(r: &mut Random, words: &mut [u32], places: u32) {
    if !words.is_empty() && places < 32 && r.one_in(12) {
        for _ in 0..1 + r.below(2) {
            let i = r.below(words.len());
            words[i] |= r.outside(places);
        }
    }
}

/// A sum of rows.
pub fn codeword(r: &mut Random, m: &Matrix) -> u32 {
    let u = r.word(MAX_ROWS);
    m.rows.iter().enumerate().filter(|(i, _)| u >> i & 1 == 1).fold(0, |c, (_, row)| c ^ row)
}

/// Received words: any words, codewords, and codewords with one to four changed places.
pub fn received(r: &mut Random, m: &Matrix) -> Vec<u32> {
    let places = m.n.clamp(1, 32);
    let mut words: Vec<u32> = (0..how_many(r))
        .map(|_| {
            let c = codeword(r, m);
            match r.below(5) {
                0 => r.word(places),
                t => c ^ r.pattern(places, (t as u32 - 1).min(places)),
            }
        })
        .collect();
    spoil(r, &mut words, places);
    words
}

/// A list with as many slots as wanted or more, now and then fewer, filled with values of its own.
pub fn slots(r: &mut Random, wanted: usize) -> Vec<u32> {
    let length = match r.below(12) {
        0 if wanted > 0 => r.below(wanted),
        1 => wanted + 600,
        _ => wanted + r.below(4),
    };
    (0..length).map(|_| r.next() as u32).collect()
}
