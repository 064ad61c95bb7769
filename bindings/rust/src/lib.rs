//! Safe calls of Relaymarten: proved encoding and decoding of binary linear block codes.
//!
//! A word of n places is the number whose bit i is place i. A generator matrix is a list of k rows, each a word of n places;
//! message place i selects row i. n is 2 to 32, k is 1 to 20, n - k is 1 to 12. Any other input is refused, by a [`Refusal`] that
//! has the specification's number and value; no call panics, allocates or keeps anything, and calls may run in several threads at
//! once.
//!
//! ```
//! use relaymarten::{decode, encode, message, Lent, Outcome, Reading, Refusal};
//!
//! // a (7,4) code; the row 1101000, place 0 leftmost, is 0b0001011
//! let rows = [0b0001011, 0b0010110, 0b0100111, 0b1000101];
//! let mut sent = [0; 1];
//! encode(7, 4, &rows, &[0b1011], &mut sent)?;
//!
//! // place 3 is changed on the way
//! let received = [sent[0] ^ 0b0001000];
//! let (mut words, mut counts, mut work) = ([0; 1], [0; 1], [0; 8]);
//! let lent = Lent { codewords: &mut words, counts: &mut counts, work: &mut work };
//! for outcome in decode(7, 4, &rows, Reading::Within(1), &received, lent)? {
//!     match outcome {
//!         Outcome::Clean(_) => unreachable!("a place was changed"),
//!         Outcome::Mended(codeword, count) => assert_eq!((codeword, count), (sent[0], 1)),
//!         Outcome::Far => unreachable!("every word is within 1 place of a codeword of this code"),
//!     }
//! }
//!
//! // a word that is no codeword is not read back
//! let mut read = [0; 1];
//! assert_eq!(message(7, 4, &rows, &received, &mut read), Err(Refusal::NoCodeword(0)));
//! message(7, 4, &rows, &sent, &mut read)?;
//! assert_eq!(read, [0b1011]);
//! # Ok::<(), Refusal>(())
//! ```
//!
//! The static library that `bindings/build` writes is linked: from `target/staticlib` of the repository, or from the
//! folder that the environment variable `RELAYMARTEN_LIB_DIR` names when the crate is built. [`raw`] has its calls as
//! `bindings/relaymarten.h` declares them. What the proofs ask of a caller there (pointers that are not null, aligned and valid
//! for their length, and nothing written that overlaps anything else) is what Rust's references are.

#![no_std]
#![warn(missing_docs)]

mod outcome;
#[allow(missing_docs)]
pub mod raw;
mod refusal;

pub use outcome::{Decoded, Outcome, Outcomes};
pub use refusal::Refusal;

use outcome::front;

/// The version of the library that this crate is written for: 10,000 times the major number, 100 times the minor one, and the
/// patch.
pub const VERSION: u32 = 900;

/// The most places of a word, n.
pub const MAX_PLACES: u32 = 32;

/// The most rows of a matrix, k.
pub const MAX_ROWS: usize = 20;

/// The most check rows, n - k.
pub const MAX_CHECKS: usize = 12;

/// The entries of a list of weight counts: weights 0 to 32.
pub const WEIGHTS: usize = 33;

/// The most words of one call.
pub const MAX_WORDS: usize = 512;

/// The most words that are sent interleaved.
pub const MAX_DEPTH: usize = 16;

/// The most entries that a working list needs, 2^(n - k).
pub const MAX_LEADERS: usize = 4096;

/// The most bytes of a code sheet.
pub const MAX_SHEET: usize = 4096;

/// The bytes that [`run`] needs room for.
pub const MAX_OUTPUT: usize = 20480;

/// The count of a word that is far, in the lists of [`decode`] and [`decode_interleaved`] and in [`raw`].
pub const FAR: u8 = 255;

/// How received words are read.
#[derive(Clone, Copy, Debug, PartialEq, Eq, Hash)]
#[non_exhaustive]
pub enum Reading {
    /// Each word is decoded to a nearest codeword.
    Nearest,
    /// Each word is decoded to the codeword at a distance of at most this radius, or is far.
    Within(u32),
}

/// What the code of a matrix is. Entries past k, n - k and n are 0.
#[derive(Clone, Debug, PartialEq, Eq)]
#[non_exhaustive]
pub struct Description {
    /// The rows of the reduced row echelon form.
    pub reduced: [u32; MAX_ROWS],
    /// The parity-check rows.
    pub checks: [u32; MAX_CHECKS],
    /// The number of codewords of each weight.
    pub weight_counts: [u32; WEIGHTS],
    /// The minimum distance.
    pub dmin: u32,
    /// The lightest codeword: the smallest number among the nonzero codewords of that weight, whatever rows the code was given by.
    pub lightest: u32,
}

/// The coset leaders of a matrix, by syndrome.
#[derive(Clone, Copy, Debug, PartialEq, Eq)]
#[non_exhaustive]
pub struct Leaders<'a> {
    /// Entry s is the leader of syndrome s: the lightest word that has it, of several the smallest number.
    pub list: &'a [u32],
    /// The parity-check rows; bit j of a word's syndrome is the parity of what the word and row j have in common. Entries past
    /// n - k are 0.
    pub checks: [u32; MAX_CHECKS],
    /// How many words were tried, by rising weight and of equal weight by rising number: the place of the leader that comes last
    /// in this order, the zero word's being 1.
    pub tried: u32,
}

/// The lists that [`decode`] and [`decode_interleaved`] write.
#[derive(Debug)]
pub struct Lent<'a> {
    /// A slot for each word: its codeword, or the received word where that is far.
    pub codewords: &'a mut [u32],
    /// A slot for each word: its distance from the codeword, or [`FAR`].
    pub counts: &'a mut [u8],
    /// 2^(n - k) entries, [`MAX_LEADERS`] for any code: the coset leaders, by syndrome.
    pub work: &'a mut [u32],
}

impl<'a> Lent<'a> {
    /// The outcomes of so many words over the lists of an accepted call.
    fn decoded(self, words: usize, n: u32, k: u32) -> Decoded<'a> {
        Decoded::over(front(self.codewords, words), front(self.counts, words), front(self.work, syndromes(n, k)))
    }
}

/// A word of the (72,64) code, or of the codes of 16 and 32 data bits beside it, (22,16) and (39,32).
#[derive(Clone, Copy, Debug, Default, PartialEq, Eq, Hash)]
pub struct HsiaoWord {
    /// The check bits, the first places: 8, or 6 and 7.
    pub check: u8,
    /// The data bits, the places after them.
    pub data: u64,
}

/// Makes a call that writes a value through its last pointer, and turns number and value into a result.
fn told(call: impl FnOnce(*mut usize) -> u32) -> Result<(), Refusal> {
    let mut value = 0;
    match call(&mut value) {
        0 => Ok(()),
        number => Err(Refusal::from_told(number, value)),
    }
}

// SAFETY, for every call below: each pointer comes from a reference, with the length of its list, so that none is null, all are
// aligned and valid; the mutable ones are those of different borrows or locals, so that nothing written overlaps anything else.
// No call keeps a pointer.

/// The version of the linked library, to be compared with [`VERSION`].
pub fn version() -> u32 {
    unsafe { raw::relay_version() }
}

/// What the code of a matrix is. Causes 1 to 4.
pub fn describe(n: u32, k: u32, rows: &[u32]) -> Result<Description, Refusal> {
    let mut d = Description { reduced: [0; MAX_ROWS], checks: [0; MAX_CHECKS], weight_counts: [0; WEIGHTS], dmin: 0, lightest: 0 };
    told(|value| unsafe {
        raw::relay_describe(
            n,
            k,
            rows.as_ptr(),
            rows.len(),
            &mut d.reduced,
            &mut d.checks,
            &mut d.weight_counts,
            &mut d.dmin,
            &mut d.lightest,
            value,
        )
    })?;
    Ok(d)
}

/// Writes the coset leaders to the front of `list`, 2^(n - k) entries, and gives them with the check rows and the number of words
/// tried. Causes 1 to 4 and 9. Later slots, and on a refusal all, keep their values.
///
/// It takes from microseconds to about a second, by the matrix.
pub fn leaders<'a>(n: u32, k: u32, rows: &[u32], list: &'a mut [u32]) -> Result<Leaders<'a>, Refusal> {
    let (mut checks, mut tried) = ([0; MAX_CHECKS], 0);
    told(|value| unsafe {
        raw::relay_leaders(n, k, rows.as_ptr(), rows.len(), list.as_mut_ptr(), list.len(), &mut checks, &mut tried, value)
    })?;
    Ok(Leaders { list: front(list, syndromes(n, k)), checks, tried })
}

/// Writes the codeword of message i, of k places, to slot i. Causes 1 to 4 and 6 to 8. Later slots, and on a refusal all, keep
/// their values.
pub fn encode(n: u32, k: u32, rows: &[u32], messages: &[u32], out: &mut [u32]) -> Result<(), Refusal> {
    told(|value| unsafe {
        raw::relay_encode(n, k, rows.as_ptr(), rows.len(), messages.as_ptr(), messages.len(), out.as_mut_ptr(), out.len(), value)
    })
}

/// Writes the message of codeword i to slot i. Causes 1 to 4, 6 to 8 and 10: one word that is no codeword refuses the whole list.
/// Later slots, and on a refusal all, keep their values.
pub fn message(n: u32, k: u32, rows: &[u32], words: &[u32], out: &mut [u32]) -> Result<(), Refusal> {
    told(|value| unsafe {
        raw::relay_message(n, k, rows.as_ptr(), rows.len(), words.as_ptr(), words.len(), out.as_mut_ptr(), out.len(), value)
    })
}

/// Decodes received words into the lent lists, and gives the outcomes over them. Causes 1 to 4, 5 within a radius, and 6 to 9.
/// Later slots, and on a refusal all, keep their values.
///
/// The leaders are built in each call, which takes from microseconds to about a second, by the matrix; the minimum distance, within a
/// radius, and more words cost little.
pub fn decode<'a>(n: u32, k: u32, rows: &[u32], reading: Reading, words: &[u32], lent: Lent<'a>) -> Result<Decoded<'a>, Refusal> {
    let (within, radius) = match reading {
        Reading::Nearest => (0, 0),
        Reading::Within(radius) => (1, radius),
    };
    told(|value| unsafe {
        raw::relay_decode(
            n,
            k,
            rows.as_ptr(),
            rows.len(),
            within,
            radius,
            words.as_ptr(),
            words.len(),
            lent.codewords.as_mut_ptr(),
            lent.codewords.len(),
            lent.counts.as_mut_ptr(),
            lent.counts.len(),
            lent.work.as_mut_ptr(),
            lent.work.len(),
            value,
        )
    })?;
    Ok(lent.decoded(words.len(), n, k))
}

/// Interleaves words of n places, one byte a bit: place j of word i becomes bit number L * j + i, where the depth L is the number of
/// words. Causes 1 to 4, 16, 17 where `bits` has another length than L * n, and 7. Every byte is written, and on a refusal none.
pub fn interleave(n: u32, k: u32, rows: &[u32], words: &[u32], bits: &mut [u8]) -> Result<(), Refusal> {
    told(|value| unsafe {
        raw::relay_interleave(n, k, rows.as_ptr(), rows.len(), words.as_ptr(), words.len(), bits.as_mut_ptr(), bits.len(), value)
    })
}

/// Deinterleaves: writes word i of as many as the depth says, its place j being bit number depth * j + i, to slot i. Causes 1 to 4,
/// 16, 17 where `bits` has another length than depth * n or a byte above 1, and 8. Later slots, and on a refusal all, keep their
/// values.
pub fn deinterleave(n: u32, k: u32, rows: &[u32], depth: usize, bits: &[u8], out: &mut [u32]) -> Result<(), Refusal> {
    told(|value| unsafe {
        raw::relay_deinterleave(
            n,
            k,
            rows.as_ptr(),
            rows.len(),
            depth,
            bits.as_ptr(),
            bits.len(),
            out.as_mut_ptr(),
            out.len(),
            value,
        )
    })
}

/// Deinterleaves received bits, as [`deinterleave`], and decodes the words within the radius, as [`decode`]. Causes 1 to 5, 16, 17,
/// 8 and 9. Later slots, and on a refusal all, keep their values.
///
/// Where codewords were sent and the changed bits fit in depth * radius consecutive places of the list, wherever these begin, every
/// word comes back.
///
/// ```
/// use relaymarten::{decode_interleaved, interleave, Lent, Outcome, Refusal};
///
/// let rows = [0b0001011, 0b0010110, 0b0100111, 0b1000101];
/// let sent = [0b0011101, 0b1000101, 0b1111111];
/// let mut bits = [0; 3 * 7];
/// interleave(7, 4, &rows, &sent, &mut bits)?;
///
/// // a burst of three bits, one of each word
/// bits[10..13].iter_mut().for_each(|bit| *bit ^= 1);
/// let (mut words, mut counts, mut work) = ([0; 3], [0; 3], [0; 8]);
/// let lent = Lent { codewords: &mut words, counts: &mut counts, work: &mut work };
/// let outcomes = decode_interleaved(7, 4, &rows, 1, 3, &bits, lent)?;
/// assert!(outcomes.into_iter().eq(sent.map(|word| Outcome::Mended(word, 1))));
/// # Ok::<(), Refusal>(())
/// ```
pub fn decode_interleaved<'a>(
    n: u32,
    k: u32,
    rows: &[u32],
    radius: u32,
    depth: usize,
    bits: &[u8],
    lent: Lent<'a>,
) -> Result<Decoded<'a>, Refusal> {
    told(|value| unsafe {
        raw::relay_decode_interleaved(
            n,
            k,
            rows.as_ptr(),
            rows.len(),
            radius,
            depth,
            bits.as_ptr(),
            bits.len(),
            lent.codewords.as_mut_ptr(),
            lent.codewords.len(),
            lent.counts.as_mut_ptr(),
            lent.counts.len(),
            lent.work.as_mut_ptr(),
            lent.work.len(),
            value,
        )
    })?;
    Ok(lent.decoded(depth, n, k))
}

/// How many syndromes an accepted matrix has.
fn syndromes(n: u32, k: u32) -> usize {
    1 << n.saturating_sub(k).min(MAX_CHECKS as u32)
}

/// The extended Golay codeword of a message of 12 places; its places 0 to 11 are checks, 12 to 23 the message. Cause 7.
pub fn golay_encode(message: u32) -> Result<u32, Refusal> {
    let mut word = 0;
    told(|value| unsafe { raw::relay_golay_encode(message, &mut word, value) })?;
    Ok(word)
}

/// The Golay codeword within three places of a word of 24, or far. Cause 7.
pub fn golay_decode(received: u32) -> Result<Outcome<u32>, Refusal> {
    let (mut word, mut count) = (0, 0);
    told(|value| unsafe { raw::relay_golay_decode(received, &mut word, &mut count, value) })?;
    Ok(Outcome::told(word, count))
}

/// The message of a Golay codeword. Causes 7 and 10.
pub fn golay_message(codeword: u32) -> Result<u32, Refusal> {
    let mut message = 0;
    told(|value| unsafe { raw::relay_golay_message(codeword, &mut message, value) })?;
    Ok(message)
}

/// The codeword of 64 data bits in the (72,64) code.
pub fn hsiao_encode(data: u64) -> HsiaoWord {
    HsiaoWord { check: unsafe { raw::relay_hsiao_encode(data) }, data }
}

/// The (72,64) codeword within one place of the word, or far.
pub fn hsiao_decode(received: HsiaoWord) -> Outcome<HsiaoWord> {
    let mut word = received;
    let count = unsafe { raw::relay_hsiao_decode(&mut word.check, &mut word.data) };
    Outcome::told(word, count)
}

/// The data of a (72,64) codeword. Cause 10.
pub fn hsiao_message(codeword: HsiaoWord) -> Result<u64, Refusal> {
    let mut message = 0;
    told(|value| unsafe { raw::relay_hsiao_message(codeword.check, codeword.data, &mut message, value) })?;
    Ok(message)
}

/// The codeword of 16, 32 or 64 data bits, this number being the width. Causes 14 and 15.
pub fn hsiao_width_encode(width: u32, data: u64) -> Result<HsiaoWord, Refusal> {
    let mut check = 0;
    told(|value| unsafe { raw::relay_hsiao_width_encode(width, data, &mut check, value) })?;
    Ok(HsiaoWord { check, data })
}

/// The codeword of the width's code within one place of the word, or far. Causes 14 and 15.
pub fn hsiao_width_decode(width: u32, received: HsiaoWord) -> Result<Outcome<HsiaoWord>, Refusal> {
    let (mut word, mut count) = (HsiaoWord::default(), 0);
    told(|value| unsafe {
        raw::relay_hsiao_width_decode(width, received.check, received.data, &mut word.check, &mut word.data, &mut count, value)
    })?;
    Ok(Outcome::told(word, count))
}

/// The data of a codeword of the width's code. Causes 14, 15 and 10, in this order.
pub fn hsiao_width_message(width: u32, codeword: HsiaoWord) -> Result<u64, Refusal> {
    let mut message = 0;
    told(|value| unsafe { raw::relay_hsiao_width_message(width, codeword.check, codeword.data, &mut message, value) })?;
    Ok(message)
}

/// What the program `decode_sheet` prints for the bytes of a code sheet, written to the front of `out`; the rest keeps its
/// values. The last line, "clean C mended M far F places P", adds the words up. A refused sheet, causes 1 to 7, 12 and 13, is an
/// error; its one line, "refused NUMBER VALUE", is written too.
pub fn run<'a>(sheet: &[u8], out: &'a mut [u8; MAX_OUTPUT]) -> Result<&'a [u8], Refusal> {
    let length = unsafe { raw::relay_run(sheet.as_ptr(), sheet.len(), out.as_mut_ptr(), out.len()) };
    let printed = front(&out[..], length);
    match refused(printed) {
        Some((number, value)) => Err(Refusal::from_told(number, value)),
        None => Ok(printed),
    }
}

/// Number and value of the one line of a refused sheet.
fn refused(printed: &[u8]) -> Option<(u32, usize)> {
    let line = printed.strip_prefix(b"refused ")?.strip_suffix(b"\n")?;
    let (number, value) = core::str::from_utf8(line).ok()?.split_once(' ')?;
    Some((number.parse().ok()?, value.parse().ok()?))
}
