//! The codes of 16, 32 and 64 data bits.
use crate::plain::{width_code, SplitCode};
use crate::random::Random;
use crate::{cause, causes, outcome, told};
use relaymarten::{hsiao_decode, hsiao_message, hsiao_width_decode, hsiao_width_encode, hsiao_width_message, raw, HsiaoWord};
use std::collections::BTreeSet;

type Answer<T> = Result<T, (u32, usize)>;

/// The code of the width, where it has such a word.
fn code_of(width: u32, check: u8, data: u64) -> Answer<SplitCode> {
    let code = width_code(width).ok_or((14, 0))?;
    if code.holds(check, data) {
        Ok(code)
    } else {
        Err((15, 0))
    }
}

/// What a call answers through its pointers: 0 in every part on a refusal.
fn encode_raw(width: u32, data: u64) -> (u32, u8, usize) {
    let (mut check, mut value) = (7, 7);
    let number = unsafe { raw::relay_hsiao_width_encode(width, data, &mut check, &mut value) };
    (number, check, value)
}

fn decode_raw(width: u32, check: u8, data: u64) -> (u32, (u8, u64, u8), usize) {
    let (mut word, mut count, mut value) = ((7, 7), 7, 7);
    let number = unsafe { raw::relay_hsiao_width_decode(width, check, data, &mut word.0, &mut word.1, &mut count, &mut value) };
    (number, (word.0, word.1, count), value)
}

fn message_raw(width: u32, check: u8, data: u64) -> (u32, u64, usize) {
    let (mut message, mut value) = (7, 7);
    let number = unsafe { raw::relay_hsiao_width_message(width, check, data, &mut message, &mut value) };
    (number, message, value)
}

/// Number, parts and value, as the call of an answer writes them.
fn written<T: Copy + Default>(answer: &Answer<T>) -> (u32, T, usize) {
    match answer {
        Ok(parts) => (0, *parts, 0),
        Err((number, value)) => (*number, T::default(), *value),
    }
}

/// One word with every call; the answer to its read-back.
fn compare(width: u32, check: u8, data: u64) -> Answer<u64> {
    let told_as = format!("{width} {check:02X} {data:016X}");
    let encoded = code_of(width, 0, data).map(|code| code.syndrome(0, data));
    assert_eq!(encode_raw(width, data), written(&encoded), "{told_as}");
    assert_eq!(told(hsiao_width_encode(width, data)), encoded.map(|check| HsiaoWord { check, data }), "{told_as}");

    let word = HsiaoWord { check, data };
    let decoded = code_of(width, check, data).map(|code| code.decoded(check, data));
    assert_eq!(decode_raw(width, check, data), written(&decoded), "{told_as}");
    let wanted = decoded.map(|(check, data, count)| outcome(HsiaoWord { check, data }, count));
    assert_eq!(told(hsiao_width_decode(width, word)), wanted, "{told_as}");

    let read = code_of(width, check, data).and_then(|code| if code.syndrome(check, data) == 0 { Ok(data) } else { Err((10, 0)) });
    assert_eq!(message_raw(width, check, data), written(&read), "{told_as}");
    assert_eq!(told(hsiao_width_message(width, word)), read, "{told_as}");
    if width == 64 {
        assert_eq!(wanted, Ok(hsiao_decode(word)), "{told_as}");
        assert_eq!(read, told(hsiao_message(word)), "{told_as}");
    }
    read
}

/// Codewords with up to three changed places, words with ones beyond the width, any words, and any widths.
#[test]
fn words() {
    let mut r = Random::of("hsiao widths");
    let mut seen = BTreeSet::new();
    for i in 0..90000 {
        let width = [16, 32, 64][i % 3];
        let code = width_code(width).unwrap();
        let mut data = r.next() >> (64 - width);
        let mut check = code.syndrome(0, data);
        for _ in 0..i / 3 % 4 {
            match r.below((code.checks + width) as usize) as u32 {
                p if p < code.checks => check ^= 1 << p,
                p => data ^= 1 << (p - code.checks),
            }
        }
        match i / 12 % 6 {
            0 => check = r.next() as u8,
            1 => data ^= 1 << r.below(64),
            2 => check ^= 1 << r.below(8),
            _ => {}
        }
        let asked = if i % 11 == 0 { r.below(130) as u32 } else { width };
        seen.insert((cause(&compare(asked, check, data)), asked == 16, asked == 32));
    }
    let numbers: BTreeSet<_> = seen.iter().map(|s| s.0).collect();
    assert_eq!(numbers, causes(&[0, 10, 14, 15], &[]));
    for narrow in [(true, false), (false, true)] {
        for number in [0, 10, 15] {
            assert!(seen.contains(&((number, false), narrow.0, narrow.1)), "{number} {narrow:?}");
        }
    }
}

/// Every check beside each single data bit of each width, the first one beyond it, and none.
#[test]
fn every_syndrome() {
    for width in [16, 32, 64] {
        for check in 0..=255 {
            let _ = compare(width, check, 0);
            for i in 0..64.min(width + 1) {
                let _ = compare(width, check, 1 << i);
            }
        }
    }
}

/// Every number up to 300 and some beyond as a width, with data and check bits beyond everything.
#[test]
fn every_width() {
    for width in (0..300).chain([1 << 16 | 16, 1 << 31 | 32, u32::MAX]) {
        let read = compare(width, 255, u64::MAX);
        assert_eq!(
            cause(&read).0,
            if width == 64 {
                10
            } else if width == 16 || width == 32 {
                15
            } else {
                14
            }
        );
    }
}
