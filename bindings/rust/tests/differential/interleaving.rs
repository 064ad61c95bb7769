//! Interleaved words, and the decode after sorting back.
use crate::codes::compare_outcomes;
use crate::inputs::{codeword, largest, matrix, matrix_in, slots, spoil, Matrix};
use crate::random::Random;
use crate::{cause, causes, plain, told, Cause};
use relaymarten::{raw, Lent};
use std::collections::BTreeSet;

type Answer = Result<(), (u32, usize)>;

/// With depth L, the number of words, place j of word i travels as bit number L times j plus i, in a list of one byte a bit.
fn sent(n: u32, words: &[u32]) -> Vec<u8> {
    let depth = words.len();
    let mut bits = vec![9; depth * n as usize];
    for (i, word) in words.iter().enumerate() {
        for j in 0..n as usize {
            bits[depth * j + i] = (word >> j & 1) as u8;
        }
    }
    bits
}

/// The words that were sent so.
fn sorted(n: u32, depth: usize, bits: &[u8]) -> Vec<u32> {
    let word = |i: usize| (0..n as usize).map(|j| u32::from(bits[depth * j + i]) << j).sum();
    (0..depth).map(word).collect()
}

/// Cause 16, and 17 for a list of so many bytes.
fn long_enough(n: u32, depth: usize, length: usize) -> Answer {
    if !(1..=16).contains(&depth) {
        return Err((16, 0));
    }
    if length != depth * n as usize {
        return Err((17, 0));
    }
    Ok(())
}

/// Causes 16 and 17 of received bits.
fn in_order(n: u32, depth: usize, bits: &[u8]) -> Answer {
    long_enough(n, depth, bits.len())?;
    match bits.iter().max() {
        Some(&most) if most > 1 => Err((17, 0)),
        _ => Ok(()),
    }
}

/// Causes 1 to 4, 16, 17 and 7.
fn interleave(m: &Matrix, words: &[u32], bits: &mut [u8]) -> Answer {
    plain::accept(m.n, m.k, &m.rows)?;
    long_enough(m.n, words.len(), bits.len())?;
    if let Some(i) = plain::outside(words, m.n) {
        return Err((7, i));
    }
    bits.copy_from_slice(&sent(m.n, words));
    Ok(())
}

/// Causes 1 to 4, 16, 17 and 8.
fn deinterleave(m: &Matrix, depth: usize, bits: &[u8], out: &mut [u32]) -> Answer {
    plain::accept(m.n, m.k, &m.rows)?;
    in_order(m.n, depth, bits)?;
    if out.len() < depth {
        return Err((8, 0));
    }
    out[..depth].copy_from_slice(&sorted(m.n, depth, bits));
    Ok(())
}

/// Causes 1 to 5, 16, 17, and then those of a decode.
fn decode_sorted(m: &Matrix, radius: u32, depth: usize, bits: &[u8], to: plain::Lists) -> Answer {
    plain::admit(m.n, m.k, &m.rows, Some(radius))?;
    in_order(m.n, depth, bits)?;
    plain::decode(m.n, m.k, &m.rows, Some(radius), &sorted(m.n, depth, bits), to).map(|_| ())
}

/// The places of a word that can be sent, also where n is out of range.
fn places(m: &Matrix) -> u32 {
    m.n.clamp(1, 32)
}

/// A depth, mostly this one: else 0, one past the limit, or one that differs from it in a high bit alone.
fn depth_near(r: &mut Random, depth: usize) -> usize {
    match r.below(24) {
        0 => 0,
        1 => 17 + r.below(3),
        2 => usize::MAX - r.below(17),
        3 => depth + (1 << (8 + r.below(usize::BITS as usize - 8))),
        _ => depth,
    }
}

/// A length, mostly this one.
fn length_near(r: &mut Random, length: usize) -> usize {
    match r.below(20) {
        0 => length + 1 + r.below(3),
        1 => length.saturating_sub(1 + r.below(3)),
        2 => r.below(600),
        _ => length,
    }
}

/// Makes a byte more than a bit, now and then, also where all others are 0, and the list longer or shorter.
fn spoil_bits(r: &mut Random, bits: &mut Vec<u8>) {
    let length = length_near(r, bits.len());
    bits.resize_with(length, || r.below(2) as u8);
    if !bits.is_empty() && r.one_in(10) {
        if r.one_in(2) {
            bits.fill(0);
        }
        let b = r.below(bits.len());
        bits[b] = [2, 3, 128, 2 + r.below(254) as u8][r.below(4)];
    }
}

/// Bytes of any kind.
fn bytes(r: &mut Random, length: usize) -> Vec<u8> {
    (0..length).map(|_| r.next() as u8).collect()
}

/// One list of words is interleaved: the answer, every byte of the list and some behind it.
fn interleave_once(r: &mut Random, m: &Matrix) -> Cause {
    let count = if r.one_in(8) { [0, 0, 17, 18, 40][r.below(5)] } else { 1 + r.below(16) };
    let mut words: Vec<u32> = (0..count).map(|_| r.word(places(m))).collect();
    spoil(r, &mut words, places(m));
    let length = length_near(r, count * places(m) as usize);
    let before = bytes(r, length + 3);
    let (mut ours, mut theirs) = (before.clone(), before);
    let answer = told(relaymarten::interleave(m.n, m.k, &m.rows, &words, &mut ours[..length]));
    assert_eq!(answer, interleave(m, &words, &mut theirs[..length]), "{m:?} {words:?} {length}");
    assert_eq!(ours, theirs, "{m:?} {words:?} {length}");
    if answer.is_ok() {
        let mut back = vec![7; count];
        assert_eq!(relaymarten::deinterleave(m.n, m.k, &m.rows, count, &ours[..length], &mut back), Ok(()), "{m:?}");
        assert_eq!(back, words, "{m:?}");
    }
    cause(&answer)
}

/// One list of bits is sorted back: the answer and every slot.
fn deinterleave_once(r: &mut Random, m: &Matrix) -> Cause {
    let count = 1 + r.below(16);
    let mut bits: Vec<u8> = (0..count * places(m) as usize).map(|_| r.below(2) as u8).collect();
    spoil_bits(r, &mut bits);
    let (depth, before) = (depth_near(r, count), slots(r, count));
    let (mut ours, mut theirs) = (before.clone(), before);
    let answer = told(relaymarten::deinterleave(m.n, m.k, &m.rows, depth, &bits, &mut ours));
    assert_eq!(answer, deinterleave(m, depth, &bits, &mut theirs), "{m:?} {depth} {bits:?}");
    assert_eq!(ours, theirs, "{m:?} {depth} {bits:?}");
    cause(&answer)
}

#[test]
fn both_directions() {
    let mut r = Random::of("both_directions");
    let mut seen = [BTreeSet::new(), BTreeSet::new()];
    for round in 0..6000 {
        let m = matrix_in(&mut r, round);
        seen[0].insert(interleave_once(&mut r, &m));
        seen[1].insert(deinterleave_once(&mut r, &m));
    }
    assert_eq!(seen[0], causes(&[0, 1, 2, 16, 17], &[3, 4, 7]));
    assert_eq!(seen[1], causes(&[0, 1, 2, 8, 16, 17], &[3, 4]));
}

/// Changes bits of a list: none of them, some in a run of this length, a few anywhere, or all.
fn change(r: &mut Random, bits: &mut [u8], run: usize) {
    let length = bits.len();
    let (first, end) = match r.below(5) {
        0 => (0, 0),
        1 => (0, length),
        2 => {
            (0..1 + r.below(3)).for_each(|_| bits[r.below(length)] ^= 1);
            return;
        }
        _ => {
            let first = r.below(length);
            (first, length.min(first.saturating_add(run)))
        }
    };
    bits[first..end].iter_mut().for_each(|bit| *bit ^= r.below(2) as u8);
}

/// Whether the lists differ only in a run of this length.
fn in_a_run(a: &[u8], b: &[u8], run: usize) -> bool {
    let differ: Vec<usize> = (0..a.len()).filter(|&i| a[i] != b[i]).collect();
    differ.first().is_none_or(|first| differ[differ.len() - 1] - first < run)
}

/// A radius that the code admits or the next one, now and then a large one.
fn radius_near(r: &mut Random, m: &Matrix) -> u32 {
    let dmin = plain::accept(m.n, m.k, &m.rows).map_or(3, |code| code.dmin());
    match r.below(12) {
        0 => [u32::MAX / 2, u32::MAX][r.below(2)],
        _ => r.below((dmin as usize + 3) / 2) as u32,
    }
}

/// What decodes have answered: the causes, the counts, and how many were of codewords with a burst.
#[derive(Default)]
struct Seen {
    causes: BTreeSet<Cause>,
    counts: BTreeSet<u8>,
    bursts: usize,
}

/// One decode of sent codewords, changed: the answer, every slot of the three lists and the outcomes; a burst is mended.
fn decode_once(r: &mut Random, m: &Matrix, seen: &mut Seen) {
    let count = 1 + r.below(16);
    let words: Vec<u32> = (0..count).map(|_| codeword(r, m)).collect();
    let radius = radius_near(r, m);
    let run = count * radius as usize;
    let mut bits = sent(places(m), &words);
    let unchanged = bits.clone();
    change(r, &mut bits, run);
    let burst = in_a_run(&unchanged, &bits, run);
    spoil_bits(r, &mut bits);
    let depth = depth_near(r, count);
    let (out, counts, work) = (slots(r, count), slots(r, count), slots(r, 1 << m.n.saturating_sub(m.k).min(12)));
    let counts: Vec<u8> = counts.into_iter().map(|x| x as u8).collect();
    let (mut out1, mut counts1, mut work1) = (out.clone(), counts.clone(), work.clone());
    let (mut out2, mut counts2, mut work2) = (out, counts, work);
    let lent = Lent { codewords: &mut out1, counts: &mut counts1, work: &mut work1 };
    let to = plain::Lists { out: &mut out2, counts: &mut counts2, work: &mut work2 };
    let theirs = decode_sorted(m, radius, depth, &bits, to);
    let ours = told(relaymarten::decode_interleaved(m.n, m.k, &m.rows, radius, depth, &bits, lent).map(|batch| {
        let slots: Vec<(u32, u8)> = out2.iter().copied().zip(counts2.iter().copied()).take(depth).collect();
        compare_outcomes(batch, &slots, &work2[..1 << (m.n - m.k)]);
    }));
    assert_eq!(ours, theirs, "{m:?} {radius} {depth} {bits:?}");
    assert_eq!((&out1, &counts1, &work1), (&out2, &counts2, &work2), "{m:?} {radius} {depth} {bits:?}");
    seen.causes.insert(cause(&ours));
    if ours.is_ok() {
        seen.counts.extend(&counts1[..depth]);
    }
    if ours.is_ok() && burst {
        assert_eq!(out1[..depth], words, "{m:?} {radius} {depth} {bits:?}");
        seen.bursts += 1;
    }
}

#[test]
fn decode() {
    let mut r = Random::of("decode interleaved");
    let mut seen = Seen::default();
    for _ in 0..6000 {
        let m = matrix(&mut r, 14);
        decode_once(&mut r, &m, &mut seen);
    }
    assert_eq!(seen.causes, causes(&[0, 1, 2, 5, 8, 9, 16, 17], &[3, 4]));
    assert!(seen.counts.is_superset(&BTreeSet::from([0, 1, 2, 3, 255])), "{:?}", seen.counts);
    assert!(seen.bursts > 500, "{} bursts", seen.bursts);
}

/// Longer codes, to the limit of n and k.
#[test]
fn decode_long() {
    let mut r = Random::of("decode interleaved long");
    let mut seen = Seen::default();
    for _ in 0..20 {
        let m = matrix(&mut r, 22);
        decode_once(&mut r, &m, &mut seen);
    }
    let m = largest(&mut r);
    decode_once(&mut r, &m, &mut seen);
    assert!(seen.causes.contains(&(0, false)));
}

/// What a decode answers through its pointers, with slots behind each list.
fn decode_raw(m: &Matrix, radius: u32, depth: usize, bits: &[u8]) -> (u32, usize, Vec<u32>, Vec<u8>) {
    let (mut out, mut counts, mut work, mut value) = (vec![7; depth + 1], vec![7; depth + 1], vec![7; 1 << (m.n - m.k)], 7);
    let (rows, from) = ((m.rows.as_ptr(), m.rows.len()), (bits.as_ptr(), bits.len()));
    let (to, by, with) = (out.as_mut_ptr(), counts.as_mut_ptr(), (work.as_mut_ptr(), work.len()));
    let number = unsafe {
        raw::relay_decode_interleaved(
            m.n, m.k, rows.0, rows.1, radius, depth, from.0, from.1, to, depth, by, depth, with.0, with.1, &mut value,
        )
    };
    assert_eq!((out.pop(), counts.pop()), (Some(7), Some(7)));
    (number, value, out, counts)
}

/// Random codewords are sent, the bits of the burst are changed, and all words come back, each with its number of changed places.
fn burst_is_mended(r: &mut Random, m: &Matrix, radius: u32, depth: usize, burst: &[usize]) {
    let words: Vec<u32> = (0..depth).map(|_| codeword(r, m)).collect();
    let mut bits = sent(m.n, &words);
    burst.iter().for_each(|&b| bits[b] ^= 1);
    let changed: Vec<u8> = (0..depth).map(|i| burst.iter().filter(|&b| b % depth == i).count() as u8).collect();
    assert_eq!(decode_raw(m, radius, depth, &bits), (0, 0, words, changed), "{m:?} {depth} {burst:?}");
}

/// Every window of depth times radius bits and every pattern in it, for small codes.
#[test]
fn every_burst() {
    let mut r = Random::of("every_burst");
    let seven = Matrix { n: 7, k: 4, rows: vec![0x0B, 0x16, 0x27, 0x45] };
    let six = Matrix { n: 6, k: 3, rows: vec![0x31, 0x2A, 0x1C] };
    let five = Matrix { n: 5, k: 2, rows: vec![0x1D, 0x16] };
    for (m, depth, wanted) in [(seven, 3, 152), (six, 4, 336), (five, 2, 36)] {
        let mut cases = 0;
        for first in 0..=depth * (m.n as usize - 1) {
            for pattern in 0..1 << depth {
                let burst: Vec<usize> = (0..depth).filter(|i| pattern >> i & 1 == 1).map(|i| first + i).collect();
                burst_is_mended(&mut r, &m, 1, depth, &burst);
                cases += 1;
            }
        }
        assert_eq!(cases, wanted, "{m:?}");
    }
}

/// Every bit changed in a window that begins at any bit, and in the part of one that the end leaves; radius 0 has the empty one.
#[test]
fn full_bursts() {
    let mut r = Random::of("full_bursts");
    let columns = (0..16).filter(|c: &u32| c.count_ones() > 1);
    let hamming = Matrix { n: 15, k: 11, rows: columns.enumerate().map(|(i, c)| 1 << i | c << 11).collect() };
    let golay = Matrix { n: 23, k: 12, rows: (0..12).map(|i| 0xC75 << i).collect() };
    let repeated = Matrix { n: 7, k: 1, rows: vec![0x7F] };
    for (m, radius, depth) in [(&hamming, 1, 16), (&golay, 3, 5), (&repeated, 3, 16), (&repeated, 3, 1), (&hamming, 0, 7)] {
        let length = depth * m.n as usize;
        for first in 0..length {
            let burst: Vec<usize> = (first..length.min(first + depth * radius as usize)).collect();
            burst_is_mended(&mut r, m, radius, depth, &burst);
        }
    }
}

/// The request's words: a burst of three bits; two bits that lie further apart and hit one word twice; radius 0.
#[test]
fn three_words() {
    let m = Matrix { n: 7, k: 4, rows: vec![0x0B, 0x16, 0x27, 0x45] };
    let bits: Vec<u8> = "111001111101101001011".bytes().map(|b| b - b'0').collect();
    let mut ours = [9; 21];
    assert_eq!(relaymarten::interleave(m.n, m.k, &m.rows, &[0x1D, 0x45, 0x7F], &mut ours), Ok(()));
    assert_eq!(ours[..], bits);
    let with = |changed: &[usize]| -> Vec<u8> { (0..21).map(|b| bits[b] ^ u8::from(changed.contains(&b))).collect() };
    assert_eq!(decode_raw(&m, 1, 3, &with(&[10, 11, 12])), (0, 0, vec![0x1D, 0x45, 0x7F], vec![1, 1, 1]));
    assert_eq!(decode_raw(&m, 1, 3, &with(&[9, 12])), (0, 0, vec![0x45, 0x45, 0x7F], vec![1, 0, 0]));
    assert_eq!(decode_raw(&m, 0, 3, &with(&[9])), (0, 0, vec![0x1D ^ 8, 0x45, 0x7F], vec![255, 0, 0]));
    assert_eq!(decode_raw(&m, 2, 17, &bits), (5, 0, vec![7; 17], vec![7; 17]));
    assert_eq!(decode_raw(&m, 1, 17, &bits), (16, 0, vec![7; 17], vec![7; 17]));
}

/// A success and causes 16 and 17 write 0 as the value.
#[test]
fn value_is_written() {
    let (rows, words, mut bits, mut out, mut values) = ([0x31, 0x2A, 0x1C], [0x1C; 2], [7; 12], [7; 2], [7; 6]);
    unsafe {
        let (rows, from, to) = (rows.as_ptr(), words.as_ptr(), bits.as_mut_ptr());
        let [a, b, c, d, e, f] = values.each_mut();
        assert_eq!(raw::relay_interleave(6, 3, rows, 3, from, 2, to, 12, a), 0);
        assert_eq!(raw::relay_interleave(6, 3, rows, 3, from, 0, to, 12, b), 16);
        assert_eq!(raw::relay_interleave(6, 3, rows, 3, from, 2, to, 11, c), 17);
        let words = out.as_mut_ptr();
        assert_eq!(raw::relay_deinterleave(6, 3, rows, 3, 2, to, 12, words, 2, d), 0);
        assert_eq!(raw::relay_deinterleave(6, 3, rows, 3, 17, to, 12, words, 2, e), 16);
        assert_eq!(raw::relay_deinterleave(6, 3, rows, 3, 2, to, 11, words, 2, f), 17);
    }
    assert_eq!((out, values), ([0x1C; 2], [0; 6]));
}
