//! Any generator matrix.
use crate::inputs::{add_rows, how_many, largest, matrix, matrix_in, received, slots, spoil, Matrix};
use crate::random::Random;
use crate::{cause, causes, outcome, plain, told, Cause};
use relaymarten::{raw, Description, Lent, Outcome, Reading, Refusal, MAX_CHECKS, MAX_LEADERS, MAX_ROWS, WEIGHTS};
use std::collections::BTreeSet;

fn padded<const N: usize>(list: Vec<u32>) -> [u32; N] {
    std::array::from_fn(|i| list.get(i).copied().unwrap_or(0))
}

/// Every part of a description.
pub fn compare_description(m: &Matrix, d: &Description, code: &plain::Code) {
    assert_eq!(d.reduced, padded(code.reduced()), "{m:?}");
    assert_eq!(d.checks, padded(code.checks()), "{m:?}");
    assert_eq!(d.weight_counts, padded(code.weight_counts()), "{m:?}");
    assert_eq!(d.dmin, code.dmin(), "{m:?}");
    assert_eq!(d.lightest, code.lightest(), "{m:?}");
}

#[test]
fn describe() {
    let mut r = Random::of("describe");
    let mut seen = BTreeSet::new();
    for round in 0..5000 {
        let m = matrix_in(&mut r, round);
        let ours = told(relaymarten::describe(m.n, m.k, &m.rows));
        seen.insert(cause(&ours));
        match (ours, plain::accept(m.n, m.k, &m.rows)) {
            (Ok(d), Ok(code)) => compare_description(&m, &d, &code),
            (ours, theirs) => assert_eq!(ours.err(), theirs.err(), "{m:?}"),
        }
    }
    assert_eq!(seen, causes(&[0, 1, 2], &[3, 4]));
}

/// Rows exchanged and added to each other are another matrix of the same code, which has the same description.
#[test]
fn one_code() {
    let mut r = Random::of("one_code");
    let mut accepted = 0;
    for round in 0..2000 {
        let m = matrix_in(&mut r, round);
        let Ok(described) = relaymarten::describe(m.n, m.k, &m.rows) else {
            continue;
        };
        let mut rows = m.rows.clone();
        for _ in 0..4 * rows.len() {
            let (a, b) = (r.below(rows.len()), r.below(rows.len()));
            rows.swap(a, b);
            if a != b {
                rows[a] ^= rows[b];
            }
        }
        assert_eq!(relaymarten::describe(m.n, m.k, &rows), Ok(described), "{m:?} and {rows:?}");
        accepted += 1;
    }
    assert!(accepted > 500, "{accepted} matrices");
}

/// Every n and k to beyond the limits, with k rows of the identity.
#[test]
fn every_n_and_k() {
    for n in 0..40 {
        for k in 0..40u32 {
            let rows: Vec<u32> = (0..k).map(|i| 1u32.checked_shl(i).unwrap_or(0)).collect();
            let theirs = plain::accept(n, k, &rows).map(|_| ());
            assert_eq!(told(relaymarten::describe(n, k, &rows)).map(|_| ()), theirs, "({n},{k})");
        }
    }
}

/// A list of so many entries, and ten marked ones behind them.
fn marked(entries: usize) -> Vec<u32> {
    vec![0xA5A5A5A5; entries + 10]
}

/// These entries, 0 up to so many, and the marked ones.
fn written(list: Vec<u32>, entries: usize) -> Vec<u32> {
    let mut all = list;
    all.resize(entries, 0);
    all.resize(entries + 10, 0xA5A5A5A5);
    all
}

/// One description through pointers into longer lists: each is written to its length, 20, 12 and 33, and not behind it. A refused one is
/// 0 in every part, and number and value are written in any case.
fn describe_raw(m: &Matrix) {
    let (mut reduced, mut checks, mut counts) = (marked(MAX_ROWS), marked(MAX_CHECKS), marked(WEIGHTS));
    let (mut dmin, mut lightest, mut value) = (7, 7, 7);
    let lists = (reduced.as_mut_ptr().cast(), checks.as_mut_ptr().cast(), counts.as_mut_ptr().cast());
    let number = unsafe {
        let rows = (m.rows.as_ptr(), m.rows.len());
        raw::relay_describe(m.n, m.k, rows.0, rows.1, lists.0, lists.1, lists.2, &mut dmin, &mut lightest, &mut value)
    };
    let ours = (number, value, [reduced, checks, counts], dmin, lightest);
    let (told, lists, dmin, lightest) = match plain::accept(m.n, m.k, &m.rows) {
        Ok(code) => ((0, 0), [code.reduced(), code.checks(), code.weight_counts()], code.dmin(), code.lightest()),
        Err(e) => (e, [vec![], vec![], vec![]], 0, 0),
    };
    let [reduced, checks, counts] = lists;
    let lists = [written(reduced, 20), written(checks, 12), written(counts, 33)];
    assert_eq!(ours, (told.0, told.1, lists, dmin, lightest), "{m:?}");
}

#[test]
fn description_lists() {
    let mut r = Random::of("description_lists");
    for _ in 0..500 {
        describe_raw(&matrix(&mut r, 12));
    }
    for rows in [20, 19, 21] {
        let mut m = largest(&mut r);
        m.rows.resize(rows, 1);
        describe_raw(&m);
    }
}

/// At n = 32 every number is a word: a row and a word of 32 ones are accepted, and that codeword is clean and read back.
#[test]
fn every_number_a_word() {
    let mut r = Random::of("every_number_a_word");
    let mut m = largest(&mut r);
    m.rows[19] = u32::MAX;
    let (mut words, mut counts, mut work) = ([7; 2], [7; 2], [7; MAX_LEADERS]);
    let lent = Lent { codewords: &mut words, counts: &mut counts, work: &mut work };
    let batch = relaymarten::decode(32, 20, &m.rows, Reading::Nearest, &[u32::MAX, u32::MAX ^ 1 << 31], lent).unwrap();
    assert_eq!(batch.get(0), Some(Outcome::Clean(u32::MAX)));
    assert!(batch.get(1).unwrap().count().unwrap() <= 1);
    let mut read = [7; 1];
    assert_eq!(relaymarten::message(32, 20, &m.rows, &[u32::MAX], &mut read), Ok(()));
    assert_eq!(read, [1 << 19]);
    assert_eq!(relaymarten::encode(32, 20, &m.rows, &[0, 1 << 20], &mut [7; 2]), Err(Refusal::WordOutside(1)));
    for _ in 0..200 {
        m.rows[r.below(20)] = r.next() as u32;
        let words = [0, u32::MAX, r.next() as u32];
        let answer = relaymarten::message(32, 20, &m.rows, &words, &mut [7; 3]);
        assert!(!matches!(answer, Err(Refusal::RowOutside(_) | Refusal::WordOutside(_))), "{answer:?} {m:?} {words:?}");
    }
}

/// One call for the leaders: the answer, every slot of the list, the check rows and the number of words tried.
fn leaders_once(r: &mut Random, m: &Matrix) -> Cause {
    let before = slots(r, 1 << m.n.saturating_sub(m.k).min(12));
    let (mut ours, mut theirs) = (before.clone(), before);
    let wanted = plain::leaders(m.n, m.k, &m.rows, &mut theirs).map(|(checks, tried)| (padded(checks), tried));
    let answer = told(relaymarten::leaders(m.n, m.k, &m.rows, &mut ours).map(|l| {
        assert_eq!(l.list, &theirs[..1 << (m.n - m.k)], "{m:?}");
        (l.checks, l.tried)
    }));
    assert_eq!(answer, wanted, "{m:?}");
    assert_eq!(ours, theirs, "{m:?}");
    cause(&answer)
}

#[test]
fn leaders() {
    let mut r = Random::of("leaders");
    let mut seen = BTreeSet::new();
    for _ in 0..4000 {
        let m = matrix(&mut r, 14);
        seen.insert(leaders_once(&mut r, &m));
    }
    assert_eq!(seen, causes(&[0, 1, 2, 9], &[3, 4]));
}

/// Longer codes, and rows of the identity at either end, where every word up to the weight n - k is tried or nearly all of them.
#[test]
fn leaders_long() {
    let mut r = Random::of("leaders_long");
    for _ in 0..40 {
        let m = matrix(&mut r, 22);
        leaders_once(&mut r, &m);
    }
    for (n, k, first) in [(18, 8, 0), (18, 8, 10), (20, 8, 0), (20, 8, 12)] {
        leaders_once(&mut r, &Matrix { n, k, rows: (first..first + k).map(|i| 1 << i).collect() });
    }
    let m = largest(&mut r);
    leaders_once(&mut r, &m);
}

/// A refused call for the leaders writes 0 for the check rows and the number, and number and value in any case.
#[test]
fn refused_leaders() {
    let mut r = Random::of("refused_leaders");
    for _ in 0..500 {
        let m = matrix(&mut r, 12);
        let (mut list, mut checks, mut tried, mut value) = (slots(&mut r, 16), [7; MAX_CHECKS], 7, 7);
        let (before, rows) = (list.clone(), (m.rows.as_ptr(), m.rows.len()));
        let to = (list.as_mut_ptr(), list.len());
        let number = unsafe { raw::relay_leaders(m.n, m.k, rows.0, rows.1, to.0, to.1, &mut checks, &mut tried, &mut value) };
        match plain::leaders(m.n, m.k, &m.rows, &mut before.clone()) {
            Ok(_) => assert_eq!((number, value), (0, 0)),
            Err(e) => assert_eq!((number, value, list, checks, tried), (e.0, e.1, before, [0; 12], 0)),
        }
    }
}

/// A success writes 0 as its value, and nearest looks at no radius.
#[test]
fn success_has_value_0() {
    let (rows, words) = ([0x31, 0x2A, 0x1C], [0x1E]);
    let (mut out, mut counts, mut work, mut values) = ([7], [7], [7; 8], [7; 3]);
    unsafe {
        let (rows, to) = (rows.as_ptr(), out.as_mut_ptr());
        let [a, b, c] = values.each_mut();
        assert_eq!(raw::relay_encode(6, 3, rows, 3, [4].as_ptr(), 1, to, 1, a), 0);
        assert_eq!(raw::relay_message(6, 3, rows, 3, [0x1C].as_ptr(), 1, to, 1, b), 0);
        let (from, counts, work) = (words.as_ptr(), counts.as_mut_ptr(), work.as_mut_ptr());
        assert_eq!(raw::relay_decode(6, 3, rows, 3, 0, u32::MAX, from, 1, to, 1, counts, 1, work, 8, c), 0);
    }
    assert_eq!((out, counts, values), ([0x1C], [1], [0; 3]));
}

/// One encode call; the codewords where it was done.
fn encode_once(r: &mut Random, m: &Matrix, messages: &[u32]) -> (Cause, Option<Vec<u32>>) {
    let before = slots(r, messages.len());
    let (mut ours, mut theirs) = (before.clone(), before);
    let answer = told(relaymarten::encode(m.n, m.k, &m.rows, messages, &mut ours));
    assert_eq!(answer, plain::encode(m.n, m.k, &m.rows, messages, &mut theirs), "{m:?} {messages:?}");
    assert_eq!(ours, theirs, "{m:?} {messages:?}");
    (cause(&answer), answer.ok().map(|_| ours[..messages.len()].to_vec()))
}

/// One message call.
fn message_once(r: &mut Random, m: &Matrix, words: &[u32]) -> Cause {
    let before = slots(r, words.len());
    let (mut ours, mut theirs) = (before.clone(), before);
    let answer = told(relaymarten::message(m.n, m.k, &m.rows, words, &mut ours));
    assert_eq!(answer, plain::message(m.n, m.k, &m.rows, words, &mut theirs), "{m:?} {words:?}");
    assert_eq!(ours, theirs, "{m:?} {words:?}");
    cause(&answer)
}

#[test]
fn encode_and_message() {
    let mut r = Random::of("encode_and_message");
    let mut seen = [BTreeSet::new(), BTreeSet::new()];
    for round in 0..6000 {
        let m = matrix_in(&mut r, round);
        let places = m.k.clamp(1, 32);
        let mut messages: Vec<u32> = (0..how_many(&mut r)).map(|_| r.word(places)).collect();
        spoil(&mut r, &mut messages, places);
        let (encoded, codewords) = encode_once(&mut r, &m, &messages);
        let words = codewords.filter(|_| !r.one_in(3)).unwrap_or_else(|| received(&mut r, &m));
        seen[0].insert(encoded);
        seen[1].insert(message_once(&mut r, &m, &words));
    }
    assert_eq!(seen[0], causes(&[0, 1, 2, 6, 8], &[3, 4, 7]));
    assert_eq!(seen[1], causes(&[0, 1, 2, 6, 8], &[3, 4, 7, 10]));
}

/// What decode calls have answered, and the counts they gave within a radius and nearest.
#[derive(Default)]
struct Seen {
    causes: BTreeSet<Cause>,
    within: BTreeSet<u8>,
    nearest: BTreeSet<u8>,
}

/// Each outcome of a batch, in order and by its place, is that of the slots; the leaders are the front of the working list.
pub fn compare_outcomes(batch: relaymarten::Decoded, slots: &[(u32, u8)], leaders: &[u32]) {
    let wanted: Vec<Outcome<u32>> = slots.iter().map(|&(word, count)| outcome(word, count)).collect();
    assert_eq!(batch.iter().collect::<Vec<_>>(), wanted);
    assert_eq!(batch.into_iter().size_hint(), (wanted.len(), Some(wanted.len())));
    assert_eq!((0..wanted.len()).map(|i| batch.get(i).unwrap()).collect::<Vec<_>>(), wanted);
    assert_eq!((batch.len(), batch.is_empty(), batch.get(wanted.len())), (wanted.len(), wanted.is_empty(), None));
    assert_eq!(batch.leaders(), leaders);
}

/// One decode call: the answer, every slot of the three lists, and the outcomes.
fn decode_once(r: &mut Random, m: &Matrix, words: &[u32], seen: &mut Seen) {
    let radius = if r.one_in(2) { None } else { Some([0, 1, 1, 2, 3, u32::MAX / 2, u32::MAX][r.below(7)]) };
    let leaders = 1 << m.n.saturating_sub(m.k).min(12);
    let (out, counts, work) = (slots(r, words.len()), slots(r, words.len()), slots(r, leaders));
    let counts: Vec<u8> = counts.into_iter().map(|x| x as u8).collect();
    let (mut out1, mut counts1, mut work1) = (out.clone(), counts.clone(), work.clone());
    let (mut out2, mut counts2, mut work2) = (out, counts, work);
    let lent = Lent { codewords: &mut out1, counts: &mut counts1, work: &mut work1 };
    let to = plain::Lists { out: &mut out2, counts: &mut counts2, work: &mut work2 };
    let theirs = plain::decode(m.n, m.k, &m.rows, radius, words, to).map(|_| ());
    let answer = relaymarten::decode(m.n, m.k, &m.rows, radius.map_or(Reading::Nearest, Reading::Within), words, lent);
    let ours = told(answer.map(|batch| {
        let slots: Vec<(u32, u8)> = out2.iter().copied().zip(counts2.iter().copied()).take(words.len()).collect();
        compare_outcomes(batch, &slots, &work2[..1 << (m.n - m.k)]);
    }));
    assert_eq!(ours, theirs, "{m:?} {radius:?} {words:?}");
    assert_eq!((&out1, &counts1, &work1), (&out2, &counts2, &work2), "{m:?} {radius:?} {words:?}");
    seen.causes.insert(cause(&ours));
    if ours.is_ok() {
        let counts = if radius.is_some() { &mut seen.within } else { &mut seen.nearest };
        counts.extend(&counts1[..words.len()]);
    }
}

#[test]
fn decode() {
    let mut r = Random::of("decode");
    let mut seen = Seen::default();
    for _ in 0..8000 {
        let m = matrix(&mut r, 15);
        let words = received(&mut r, &m);
        decode_once(&mut r, &m, &words, &mut seen);
    }
    assert_eq!(seen.causes, causes(&[0, 1, 2, 5, 6, 8, 9], &[3, 4, 7]));
    assert!(seen.within.is_superset(&BTreeSet::from([0, 1, 2, 3, 255])));
    assert!(seen.nearest.is_superset(&BTreeSet::from([0, 1, 2, 3, 4, 5])) && !seen.nearest.contains(&255));
}

/// Longer codes, to the limit of n and k; each takes a walk over all words.
#[test]
fn decode_long() {
    let mut r = Random::of("decode_long");
    let mut seen = Seen::default();
    for round in 0..60 {
        let m = matrix(&mut r, if round < 52 { 22 } else { 28 });
        let words = received(&mut r, &m);
        decode_once(&mut r, &m, &words, &mut seen);
    }
    let m = largest(&mut r);
    let words = received(&mut r, &m);
    decode_once(&mut r, &m, &words, &mut seen);
    assert!(seen.causes.contains(&(0, false)));
}

/// The minimum distance alone, as cause 5 tells it: codes by the multiples of a polynomial, of up to 20 rows, with distances up to 8 and more.
#[test]
fn distances() {
    let mut r = Random::of("distances");
    let mut met = BTreeSet::new();
    for polynomial in [0x3u32, 0x25, 0x1D1, 0x769, 0x769 ^ 0x769 << 1, 0xC75, 0xC75 ^ 0xC75 << 1, 0x1FFF] {
        let degree = polynomial.ilog2();
        for k in 1..=(32 - degree).min(20) {
            let mut rows: Vec<u32> = (0..k).map(|i| polynomial << i).collect();
            add_rows(&mut r, &mut rows, 2 * k as usize);
            let dmin = plain::accept(degree + k, k, &rows).expect("independent rows").dmin();
            met.insert((k > 12, dmin));
            let mut work = vec![0; MAX_LEADERS];
            for radius in 0..=dmin {
                let lent = Lent { codewords: &mut [], counts: &mut [], work: &mut work };
                let answer = relaymarten::decode(degree + k, k, &rows, Reading::Within(radius), &[], lent).map(|_| ());
                let told = if 2 * radius < dmin { Ok(()) } else { Err(Refusal::RadiusTooLarge) };
                assert_eq!(answer, told, "{rows:?} within {radius}");
            }
        }
    }
    let few = [2, 3, 7, 8].map(|dmin| (false, dmin));
    let many = [2, 3, 5, 6].map(|dmin| (true, dmin));
    assert!(few.iter().chain(&many).all(|x| met.contains(x)), "{met:?}");
}

/// What a call with this `within` answers and leaves in the lists.
fn decode_raw(m: &Matrix, within: u32, radius: u32, words: &[u32]) -> (u32, usize, Vec<u32>, Vec<u8>, Vec<u32>) {
    let (mut out, mut counts, mut work) = (vec![7; words.len() + 1], vec![7; words.len() + 1], vec![7; MAX_LEADERS]);
    let (rows, from, mut value) = ((m.rows.as_ptr(), m.rows.len()), (words.as_ptr(), words.len()), 7);
    let to = (out.as_mut_ptr(), counts.as_mut_ptr(), work.as_mut_ptr());
    let number = unsafe {
        raw::relay_decode(
            m.n,
            m.k,
            rows.0,
            rows.1,
            within,
            radius,
            from.0,
            from.1,
            to.0,
            from.1 + 1,
            to.1,
            from.1 + 1,
            to.2,
            MAX_LEADERS,
            &mut value,
        )
    };
    (number, value, out, counts, work)
}

/// Every number but 0 means within, one whose low byte is 0 too.
#[test]
fn every_number_as_within() {
    let mut r = Random::of("every_number_as_within");
    let mut differ = 0;
    for _ in 0..300 {
        let m = matrix(&mut r, 12);
        let words = received(&mut r, &m);
        let radius = r.below(3) as u32;
        let one = decode_raw(&m, 1, radius, &words);
        for within in [2, 3, 255, 256, 65536, 1 << 31, u32::MAX, 1 | r.next() as u32] {
            assert_eq!(decode_raw(&m, within, radius, &words), one, "{within} {m:?} {radius} {words:?}");
        }
        differ += usize::from(decode_raw(&m, 0, radius, &words) != one);
    }
    assert!(differ > 0);
}

/// A batch with a clean, a mended and a far word: the far one has no word.
#[test]
fn far_word_has_no_answer() {
    let (mut words, mut counts, mut work) = ([7; 3], [7; 3], [7; 8]);
    let lent = Lent { codewords: &mut words, counts: &mut counts, work: &mut work };
    let batch = relaymarten::decode(6, 3, &[0x31, 0x2A, 0x1C], Reading::Within(1), &[0x31, 0x1F, 0x23], lent).unwrap();
    let outcomes: Vec<_> = batch.into_iter().collect();
    assert_eq!(outcomes, [Outcome::Clean(0x31), Outcome::Mended(0x1B, 1), Outcome::Far]);
    assert_eq!(outcomes.iter().map(|o| o.codeword()).collect::<Vec<_>>(), [Some(0x31), Some(0x1B), None]);
    assert_eq!(outcomes.iter().map(Outcome::count).collect::<Vec<_>>(), [Some(0), Some(1), None]);
    assert_eq!((words, counts), ([0x31, 0x1B, 0x23], [0, 1, 255]));
}

/// A refusal is an error with a text.
#[test]
fn refusal_as_error() {
    let error: Box<dyn std::error::Error> = Box::new(relaymarten::describe(6, 3, &[1, 2, 3]).unwrap_err());
    assert_eq!(error.to_string(), "row 2 is a sum of earlier rows (a zero row is the empty sum)");
    assert_eq!(error.downcast_ref(), Some(&Refusal::Dependent(2)));
}
