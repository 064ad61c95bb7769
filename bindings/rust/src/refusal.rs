use core::fmt;

/// Why a call was refused: the first cause that applies. Where a cause names a row, a word or a byte, that is its value. Later
/// versions may have more cases; [`number`](Refusal::number) and [`value`](Refusal::value) are those of the specification in each.
/// The number 11 stays unused.
#[derive(Clone, Copy, Debug, PartialEq, Eq, Hash)]
#[non_exhaustive]
pub enum Refusal {
    /// 1: n, k or n - k is out of range.
    OutOfRange,
    /// 2: the matrix is not exactly k rows long.
    RowCount,
    /// 3: a row has a one at place n or beyond; the first such row.
    RowOutside(usize),
    /// 4: the rows are dependent; the first row that is a sum of earlier rows.
    Dependent(usize),
    /// 5: the radius r is too large, 2 r + 1 is above the minimum distance.
    RadiusTooLarge,
    /// 6: more than [`MAX_WORDS`](crate::MAX_WORDS) words.
    TooManyWords,
    /// 7: a message or word has a one outside its places; the first such word.
    WordOutside(usize),
    /// 8: an output list is shorter than the words.
    ShortOutput,
    /// 9: the working list is shorter than 2^(n - k).
    ShortWork,
    /// 10: a word to be read back is no codeword; the first such word.
    NoCodeword(usize),
    /// 12: a sheet is cut, too long, or a field has a wrong length; the byte.
    SheetLayout(usize),
    /// 13: a tag of a sheet is unknown, does not rise or is missing; the byte.
    SheetTag(usize),
    /// 14: the width is none of 16, 32 and 64.
    NoWidth,
    /// 15: the data or the check bits go beyond those of the width.
    BeyondWidth,
    /// 16: the depth is not 1 to [`MAX_DEPTH`](crate::MAX_DEPTH).
    NoDepth,
    /// 17: the list of bits is not depth times n long or, when received, has a byte above 1.
    NoBits,
    /// A number, with the value beside it, that this version does not know. It is proved that none arises.
    Other(u32, usize),
}

impl Refusal {
    pub(crate) fn from_told(number: u32, value: usize) -> Refusal {
        match (number, value) {
            (1, 0) => Refusal::OutOfRange,
            (2, 0) => Refusal::RowCount,
            (3, row) => Refusal::RowOutside(row),
            (4, row) => Refusal::Dependent(row),
            (5, 0) => Refusal::RadiusTooLarge,
            (6, 0) => Refusal::TooManyWords,
            (7, word) => Refusal::WordOutside(word),
            (8, 0) => Refusal::ShortOutput,
            (9, 0) => Refusal::ShortWork,
            (10, word) => Refusal::NoCodeword(word),
            (12, byte) => Refusal::SheetLayout(byte),
            (13, byte) => Refusal::SheetTag(byte),
            (14, 0) => Refusal::NoWidth,
            (15, 0) => Refusal::BeyondWidth,
            (16, 0) => Refusal::NoDepth,
            (17, 0) => Refusal::NoBits,
            _ => Refusal::Other(number, value),
        }
    }

    /// The specification's number of the cause.
    pub fn number(self) -> u32 {
        match self {
            Refusal::OutOfRange => 1,
            Refusal::RowCount => 2,
            Refusal::RowOutside(_) => 3,
            Refusal::Dependent(_) => 4,
            Refusal::RadiusTooLarge => 5,
            Refusal::TooManyWords => 6,
            Refusal::WordOutside(_) => 7,
            Refusal::ShortOutput => 8,
            Refusal::ShortWork => 9,
            Refusal::NoCodeword(_) => 10,
            Refusal::SheetLayout(_) => 12,
            Refusal::SheetTag(_) => 13,
            Refusal::NoWidth => 14,
            Refusal::BeyondWidth => 15,
            Refusal::NoDepth => 16,
            Refusal::NoBits => 17,
            Refusal::Other(number, _) => number,
        }
    }

    /// The value that the specification returns beside the number.
    pub fn value(self) -> usize {
        match self {
            Refusal::RowOutside(v)
            | Refusal::Dependent(v)
            | Refusal::WordOutside(v)
            | Refusal::NoCodeword(v)
            | Refusal::SheetLayout(v)
            | Refusal::SheetTag(v)
            | Refusal::Other(_, v) => v,
            Refusal::OutOfRange
            | Refusal::RowCount
            | Refusal::RadiusTooLarge
            | Refusal::TooManyWords
            | Refusal::ShortOutput
            | Refusal::ShortWork
            | Refusal::NoWidth
            | Refusal::BeyondWidth
            | Refusal::NoDepth
            | Refusal::NoBits => 0,
        }
    }
}

/// In the words of docs/REFUSALS.md.
impl fmt::Display for Refusal {
    fn fmt(&self, f: &mut fmt::Formatter) -> fmt::Result {
        match self {
            Refusal::OutOfRange => write!(f, "n, k or n - k is out of range: n is 2 to 32, k is 1 to 20, n - k is 1 to 12"),
            Refusal::RowCount => write!(f, "the matrix has not exactly k rows"),
            Refusal::RowOutside(i) => write!(f, "row {i} has a one at place n or beyond"),
            Refusal::Dependent(i) => write!(f, "row {i} is a sum of earlier rows (a zero row is the empty sum)"),
            Refusal::RadiusTooLarge => write!(f, "the radius r is too large: 2 r + 1 is above the minimum distance"),
            Refusal::TooManyWords => write!(f, "there are more than 512 words"),
            Refusal::WordOutside(i) => write!(f, "word {i} has a one outside its places (n for a word, k for a message)"),
            Refusal::ShortOutput => write!(f, "an output list is shorter than the words"),
            Refusal::ShortWork => write!(f, "the working list is shorter than 2^(n - k)"),
            Refusal::NoCodeword(i) => write!(f, "word {i} is to be read back and is no codeword"),
            Refusal::SheetLayout(at) => {
                write!(f, "the sheet is cut or longer than 4,096 bytes, or the field at byte {at} has a wrong length")
            }
            Refusal::SheetTag(at) => {
                write!(f, "the tag at byte {at} is unknown or does not rise, or one is missing at the end")
            }
            Refusal::NoWidth => write!(f, "the width is none of 16, 32 and 64"),
            Refusal::BeyondWidth => write!(f, "the data or check bits go beyond those of the width"),
            Refusal::NoDepth => write!(f, "the depth is out of range: it is 1 to 16"),
            Refusal::NoBits => write!(f, "the bits are not depth times n bytes or, when received, have one above 1"),
            Refusal::Other(number, value) => write!(f, "cause {number} with value {value}"),
        }
    }
}

impl core::error::Error for Refusal {}
