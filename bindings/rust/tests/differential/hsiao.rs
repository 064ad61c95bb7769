//! The (72,64) code.
use crate::plain::{width_code, SplitCode};
use crate::random::Random;
use crate::{outcome, told};
use relaymarten::{hsiao_decode, hsiao_encode, hsiao_message, raw, HsiaoWord};
use std::collections::BTreeSet;

/// The word and count that a decode leaves.
fn decode_raw(mut check: u8, mut data: u64) -> (u8, u64, u8) {
    let count = unsafe { raw::relay_hsiao_decode(&mut check, &mut data) };
    (check, data, count)
}

/// One word: its decoding and its message.
fn compare(code: &SplitCode, check: u8, data: u64) -> u8 {
    let theirs = code.decoded(check, data);
    assert_eq!(decode_raw(check, data), theirs, "{check:02X} {data:016X}");
    let wanted = outcome(HsiaoWord { check: theirs.0, data: theirs.1 }, theirs.2);
    assert_eq!(hsiao_decode(HsiaoWord { check, data }), wanted, "{check:02X} {data:016X}");
    let codeword = code.syndrome(check, data) == 0;
    let message = if codeword { Ok(data) } else { Err((10, 0)) };
    assert_eq!(told(hsiao_message(HsiaoWord { check, data })), message, "{check:02X} {data:016X}");
    theirs.2
}

/// Codewords with up to three changed places, and any words.
#[test]
fn words() {
    let mut r = Random::of("hsiao words");
    let code = width_code(64).unwrap();
    let mut seen = BTreeSet::new();
    for i in 0..60000 {
        let mut data = r.next();
        let mut check = code.syndrome(0, data);
        assert_eq!(hsiao_encode(data), HsiaoWord { check, data }, "{data:016X}");
        for _ in 0..i % 5 {
            match r.below(72) {
                p if p < 8 => check ^= 1 << p,
                p => data ^= 1 << (p - 8),
            }
        }
        if i % 5 == 4 {
            check = r.next() as u8;
        }
        seen.insert(compare(&code, check, data));
    }
    assert_eq!(seen, BTreeSet::from([0, 1, 255]));
}

/// Every check byte with each single data bit, and with none: all 256 syndromes.
#[test]
fn every_syndrome() {
    let code = width_code(64).unwrap();
    for check in 0..=255 {
        compare(&code, check, 0);
        for i in 0..64 {
            compare(&code, check, 1 << i);
        }
    }
}

/// A word that is no codeword writes 0 as its data; a success writes 0 as its value.
#[test]
fn every_place_written() {
    let (mut data, mut a, mut b) = (7, 7, 7);
    assert_eq!(unsafe { raw::relay_hsiao_message(7, 1, &mut data, &mut a) }, 0);
    assert_eq!((data, a), (1, 0));
    assert_eq!(unsafe { raw::relay_hsiao_message(0, 1, &mut data, &mut b) }, 10);
    assert_eq!((data, b), (0, 0));
}
