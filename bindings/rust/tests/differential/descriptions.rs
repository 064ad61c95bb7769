//! Every part of a description against a walk over all codewords, for all n and k in range.
use crate::codes::compare_description;
use crate::inputs::{add_rows, independent, Matrix};
use crate::plain;
use crate::random::Random;
use std::collections::BTreeSet;

/// From so many rows on the weights are counted by way of the check rows.
const BY_CHECKS: u32 = 14;

/// The codes that were compared: whether they have BY_CHECKS rows, and their minimum distance.
type Met = BTreeSet<(bool, u32)>;

/// One matrix, which is accepted; every other time with rows added to rows.
fn compare(r: &mut Random, n: u32, k: u32, mut rows: Vec<u32>, met: &mut Met) {
    if r.one_in(2) {
        add_rows(r, &mut rows, 2 * k as usize);
    }
    let m = Matrix { n, k, rows };
    let code = plain::accept(n, k, &m.rows).expect("independent rows");
    compare_description(&m, &relaymarten::describe(n, k, &m.rows).expect("independent rows"), &code);
    met.insert((k >= BY_CHECKS, code.dmin()));
}

/// All places from this one on.
fn from(place: u32) -> u32 {
    (u64::from(u32::MAX) << place) as u32
}

/// The pivots are k places from `first` on: a row has a one at its own and any word in the places behind them.
fn pivots_from(r: &mut Random, n: u32, k: u32, first: u32) -> Vec<u32> {
    (first..first + k).map(|p| 1 << p | (r.word(n) & from(first + k))).collect()
}

/// A place of its own for each row, and up to three more ones, at places that are no row's own.
fn sparse(r: &mut Random, n: u32, k: u32) -> Vec<u32> {
    let first = r.below((n - k) as usize + 1) as u32;
    let own = from(first) & !from(first + k);
    let mut more = || {
        let weight = r.below(4.min(n as usize)) as u32;
        r.pattern(n, weight) & !own
    };
    (first..first + k).map(|p| 1 << p | more()).collect()
}

/// As many matrices of each kind for an n and k as are walked in short time.
fn rounds(k: u32) -> usize {
    match k {
        0..=9 => 50,
        10..=13 => 25,
        14..=17 => 10,
        _ => 5,
    }
}

#[test]
fn every_part() {
    let mut r = Random::of("every_part");
    let mut met = Met::new();
    for k in 1..=plain::MAX_ROWS {
        for n in k + 1..=k + 12 {
            for _ in 0..rounds(k) {
                let any = independent(&mut r, n, k as usize);
                let thin = sparse(&mut r, n, k);
                let low = pivots_from(&mut r, n, k, 0);
                let first = 1 + r.below((n - k) as usize) as u32;
                let high = pivots_from(&mut r, n, k, first);
                for rows in [any, thin, low, high] {
                    compare(&mut r, n, k, rows, &mut met);
                }
            }
        }
    }
    let wanted: Met = [1, 2, 3, 4].into_iter().flat_map(|dmin| [(false, dmin), (true, dmin)]).collect();
    assert!(met.is_superset(&wanted), "{met:?}");
}

/// Rows of the extended BCH code (32,21), a polynomial times x^i with a parity place and without row 5, shortened to k rows and 12 places
/// more.
fn bch(k: u32) -> Vec<u32> {
    (0..k).map(|i| 0x769 << (if i < 5 { i } else { i + 1 }) | 1 << (k + 11)).collect()
}

/// The words with their places exchanged: place i goes to the i-th of the list.
fn moved(places: &[u32], words: &[u32]) -> Vec<u32> {
    words.iter().map(|w| places.iter().enumerate().map(|(i, p)| (w >> i & 1) << p).sum()).collect()
}

/// Codes of minimum distance 6: as they are, with the places in the other order, and in any.
#[test]
fn every_part_of_bch_codes() {
    let mut r = Random::of("every_part_of_bch_codes");
    let mut met = Met::new();
    for k in 1..=plain::MAX_ROWS {
        let n = k + 12;
        compare(&mut r, n, k, bch(k), &mut met);
        let mut places: Vec<u32> = (0..n).rev().collect();
        for _ in 0..1 + rounds(k) {
            compare(&mut r, n, k, moved(&places, &bch(k)), &mut met);
            for i in 0..n as usize {
                places.swap(i, r.below(n as usize));
            }
        }
    }
    assert!(met.is_superset(&Met::from([(false, 6), (true, 6)])), "{met:?}");
}
