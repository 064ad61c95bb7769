use crate::FAR;
use core::iter::{Copied, FusedIterator, Zip};
use core::slice::Iter;

/// How a received word ends. A far word has no answer, so it has no word here.
#[derive(Clone, Copy, Debug, PartialEq, Eq, Hash)]
pub enum Outcome<W> {
    /// The received word is this codeword.
    Clean(W),
    /// The answer, and in how many places the received word differs from it, 1 or more. In nearest reading a count above
    /// (dmin - 1) / 2 is a guess: other codewords can be as near.
    Mended(W, u8),
    /// No codeword is within the radius. In nearest reading no word is far.
    Far,
}

impl<W> Outcome<W> {
    /// The outcome that a word and its count say.
    pub(crate) fn told(word: W, count: u8) -> Outcome<W> {
        match count {
            0 => Outcome::Clean(word),
            FAR => Outcome::Far,
            _ => Outcome::Mended(word, count),
        }
    }

    /// The codeword that is answered.
    pub fn codeword(self) -> Option<W> {
        match self {
            Outcome::Clean(word) | Outcome::Mended(word, _) => Some(word),
            Outcome::Far => None,
        }
    }

    /// The distance of the answer from the received word, 0 for a clean one.
    pub fn count(&self) -> Option<u8> {
        match self {
            Outcome::Clean(_) => Some(0),
            Outcome::Mended(_, count) => Some(*count),
            Outcome::Far => None,
        }
    }
}

/// The first entries of a list, as many as an accepted call asked of it.
pub(crate) fn front<T>(list: &[T], length: usize) -> &[T] {
    list.get(..length).unwrap_or(list)
}

/// A decoded batch: the outcome of each word, in order, over the lists that were lent to [`decode`](crate::decode) or
/// [`decode_interleaved`](crate::decode_interleaved).
#[derive(Clone, Copy, Debug)]
#[must_use = "a far word's slot in the lists is no answer: take the outcomes"]
pub struct Decoded<'a> {
    codewords: &'a [u32],
    counts: &'a [u8],
    leaders: &'a [u32],
}

impl<'a> Decoded<'a> {
    pub(crate) fn over(codewords: &'a [u32], counts: &'a [u8], leaders: &'a [u32]) -> Decoded<'a> {
        Decoded { codewords, counts, leaders }
    }

    /// The words of the batch.
    pub fn len(&self) -> usize {
        self.codewords.len()
    }

    /// Whether the batch has no words.
    pub fn is_empty(&self) -> bool {
        self.codewords.is_empty()
    }

    /// The outcome of word i, from 0.
    pub fn get(&self, i: usize) -> Option<Outcome<u32>> {
        Some(Outcome::told(*self.codewords.get(i)?, *self.counts.get(i)?))
    }

    /// The outcomes in order.
    pub fn iter(&self) -> Outcomes<'a> {
        Outcomes(self.codewords.iter().copied().zip(self.counts.iter().copied()))
    }

    /// The 2^(n - k) coset leaders, by syndrome.
    pub fn leaders(&self) -> &'a [u32] {
        self.leaders
    }
}

impl<'a> IntoIterator for Decoded<'a> {
    type Item = Outcome<u32>;
    type IntoIter = Outcomes<'a>;

    fn into_iter(self) -> Outcomes<'a> {
        self.iter()
    }
}

impl<'a> IntoIterator for &Decoded<'a> {
    type Item = Outcome<u32>;
    type IntoIter = Outcomes<'a>;

    fn into_iter(self) -> Outcomes<'a> {
        self.iter()
    }
}

/// The outcomes of a decoded batch, in order.
#[derive(Clone, Debug)]
pub struct Outcomes<'a>(Zip<Copied<Iter<'a, u32>>, Copied<Iter<'a, u8>>>);

impl Iterator for Outcomes<'_> {
    type Item = Outcome<u32>;

    fn next(&mut self) -> Option<Outcome<u32>> {
        self.0.next().map(|(word, count)| Outcome::told(word, count))
    }

    fn size_hint(&self) -> (usize, Option<usize>) {
        self.0.size_hint()
    }
}

impl ExactSizeIterator for Outcomes<'_> {}
impl FusedIterator for Outcomes<'_> {}
