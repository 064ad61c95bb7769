//! The extended Golay code.
use crate::random::Random;
use crate::{outcome, plain, told};
use relaymarten::{golay_decode, golay_encode, golay_message, raw, Outcome};
use std::collections::BTreeSet;

#[test]
fn every_message() {
    for (u, c) in (0..).zip(plain::golay_codewords()) {
        assert_eq!(golay_encode(u), Ok(c));
        assert_eq!(golay_message(c), Ok(u));
        assert_eq!(golay_decode(c), Ok(Outcome::Clean(c)));
    }
}

/// The slots that a decode writes.
fn decode_raw(w: u32) -> (u32, u8) {
    let (mut word, mut count, mut value) = (7, 7, 7);
    assert_eq!(unsafe { raw::relay_golay_decode(w, &mut word, &mut count, &mut value) }, 0, "{w:06X}");
    assert_eq!(value, 0, "{w:06X}");
    (word, count)
}

/// Any words, and codewords with up to five changed places.
#[test]
fn words() {
    let mut r = Random::of("golay words");
    let codewords = plain::golay_codewords();
    let mut seen = BTreeSet::new();
    for i in 0..80000 {
        let w = match i % 8 {
            t if t < 6 => codewords[r.below(4096)] ^ r.pattern(24, t),
            _ => r.word(24),
        };
        let theirs = plain::golay_decoded(&codewords, w);
        assert_eq!(decode_raw(w), theirs, "{w:06X}");
        assert_eq!(golay_decode(w), Ok(outcome(theirs.0, theirs.1)), "{w:06X}");
        let message = codewords.iter().position(|&c| c == w).map(|u| u as u32);
        assert_eq!(told(golay_message(w)), message.ok_or((10, 0)), "{w:06X}");
        seen.insert(theirs.1);
    }
    assert_eq!(seen, BTreeSet::from([0, 1, 2, 3, 255]));
}

/// Ones outside 12 and 24 places: number 7, and 0 in every other part.
#[test]
fn outside() {
    let mut r = Random::of("golay outside");
    for place in 12..32 {
        let w = 1 << place | r.word(12);
        let (mut word, mut value) = (7, 7);
        assert_eq!(unsafe { raw::relay_golay_encode(w, &mut word, &mut value) }, 7);
        assert_eq!((word, value), (0, 0));
    }
    for place in 24..32 {
        let w = 1 << place | r.word(24);
        let (mut word, mut count, mut message, mut a, mut b) = (7, 7, 7, 7, 7);
        assert_eq!(unsafe { raw::relay_golay_decode(w, &mut word, &mut count, &mut a) }, 7);
        assert_eq!(unsafe { raw::relay_golay_message(w, &mut message, &mut b) }, 7);
        assert_eq!((word, count, message, a, b), (0, 0, 0, 0, 0));
    }
}

/// A word that is no codeword writes 0 as its message; a success writes 0 as its value.
#[test]
fn every_place_written() {
    let (mut word, mut corrected, mut count, mut message) = (7, 7, 7, 7);
    let mut values = [7; 4];
    unsafe {
        assert_eq!(raw::relay_golay_encode(5, &mut word, &mut values[0]), 0);
        assert_eq!(raw::relay_golay_decode(word, &mut corrected, &mut count, &mut values[1]), 0);
        assert_eq!(raw::relay_golay_message(word, &mut message, &mut values[2]), 0);
        assert_eq!((corrected, count, message), (word, 0, 5));
        assert_eq!(raw::relay_golay_message(word ^ 1, &mut message, &mut values[3]), 10);
    }
    assert_eq!((message, values), (0, [0; 4]));
}
