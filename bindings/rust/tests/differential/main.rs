//! The library, called through this crate, against the plain implementation of `plain`: on random inputs, valid and damaged,
//! every answer with its value and every slot of every list. Each test demands that every cause that can arise has arisen, with
//! its values, and no other: 11 is none.
//!
//! The inputs are the same at each run. RELAY_SEED=NUMBER, decimal and below 2^64, gives others, each number its own; an empty
//! one is as none, and anything else fails every test. A failing test prints the seed it had.
mod codes;
mod descriptions;
mod golay;
mod hsiao;
mod inputs;
mod interleaving;
mod plain;
mod random;
mod sheets;
mod widths;

use relaymarten::{Outcome, Refusal};
use std::collections::BTreeSet;

/// A result with its refusal as number and value, as `plain` has it.
fn told<T>(result: Result<T, Refusal>) -> Result<T, (u32, usize)> {
    result.map_err(|e| (e.number(), e.value()))
}

/// The outcome of a word and its count, as `plain` has them.
fn outcome<W>(word: W, count: u8) -> Outcome<W> {
    match count {
        0 => Outcome::Clean(word),
        255 => Outcome::Far,
        _ => Outcome::Mended(word, count),
    }
}

#[test]
fn version() {
    assert_eq!(relaymarten::version(), relaymarten::VERSION);
}

/// The number of an answer, and whether its value is above 0.
type Cause = (u32, bool);

fn cause<T>(answer: &Result<T, (u32, usize)>) -> Cause {
    answer.as_ref().err().map_or((0, false), |e| (e.0, e.1 > 0))
}

/// The numbers that come with the value 0 alone, and those that come with other values too.
fn causes(alone: &[u32], valued: &[u32]) -> BTreeSet<Cause> {
    let zero = alone.iter().chain(valued).map(|&n| (n, false));
    zero.chain(valued.iter().map(|&n| (n, true))).collect()
}
