"""The code sheet (docs/SHEET.md): digits to numbers and back, fields to bytes, and the reader's tests of each field in order."""
from typing import Callable, NamedTuple

MAX_SHEET = 4096                  # bytes of a sheet
MAX_FIELD = 65535                 # bytes of a field's content
MAX_WORDS = 512                   # words of a batch
WIDTH = 32                        # places of a stored row or word

CUT, TAG = 12, 13                 # the numbers of a sheet that cannot be read


class Length(NamedTuple):
    fits: Callable[[int], bool]
    fault: str                    # what a length that does not fit is said to be
    words: bool                   # whether the content is words of 4 bytes


BYTE = Length(lambda size: size == 1, 'is not 1', False)
WORDS = Length(lambda size: size % 4 == 0, 'is not a multiple of 4', True)


class Tag(NamedTuple):
    name: str
    length: Length
    wanted: bool                  # whether a sheet must have it


TAGS = {
    1: Tag('n', BYTE, True),
    2: Tag('k', BYTE, True),
    3: Tag('rows', WORDS, True),
    4: Tag('radius', BYTE, False),
    5: Tag('words', WORDS, True),
}
TAG_OF = {tag.name: number for number, tag in TAGS.items()}


# ---- words
def number_of(digits):
    """The number whose bit i is digit i."""
    return sum(1 << i for i, d in enumerate(digits) if d == '1')


def digits_of(n, word):
    """Place 0 leftmost; the n places, and more where a one stands beyond them."""
    return ''.join(str(word >> p & 1) for p in range(max(n, word.bit_length())))


def words_in(content):
    return [int.from_bytes(content[i:i + 4], 'little') for i in range(0, len(content), 4)]


# ---- writing
def field(name, content):
    return bytes([TAG_OF[name]]) + len(content).to_bytes(2, 'big') + content


def byte_field(name, value):
    return field(name, bytes([value]))


def words_field(name, words):
    """Words in digits."""
    return field(name, b''.join(number_of(digits).to_bytes(4, 'little') for digits in words))


def sheet(n, k, rows, radius, words):
    """Without a radius (None), nearest reading."""
    return (byte_field('n', n) + byte_field('k', k) + words_field('rows', rows)
            + (b'' if radius is None else byte_field('radius', radius)) + words_field('words', words))


# ---- reading
class Fault(Exception):
    """A field that cannot be read: the number, the position and what is wrong."""

    def __init__(self, number, position, what):
        super().__init__('byte %d: %s: refused %d %d' % (position, what, number, position))


def fields(sheet):
    """The position, tag and content of each field; Fault at the first that cannot be read, or where a tag is missing at the end."""
    if len(sheet) > MAX_SHEET:
        raise Fault(CUT, MAX_SHEET, 'the sheet is longer than %d bytes' % MAX_SHEET)
    at, last, seen = 0, 0, set()
    while at < len(sheet):
        left = len(sheet) - at
        if left < 3:
            raise Fault(CUT, at, 'the sheet is cut: tag and length take 3 bytes, %d left' % left)
        tag, size = sheet[at], int.from_bytes(sheet[at + 1:at + 3], 'big')
        if tag not in TAGS:
            raise Fault(TAG, at, 'tag %d is unknown, tags are %d to %d' % (tag, min(TAGS), max(TAGS)))
        if tag <= last:
            raise Fault(TAG, at, 'tag %d stands after tag %d, tags rise' % (tag, last))
        if size > left - 3:
            raise Fault(CUT, at, 'the sheet is cut: length %d goes past the end, %d left' % (size, left - 3))
        if not TAGS[tag].length.fits(size):
            raise Fault(CUT, at, 'length %d %s' % (size, TAGS[tag].length.fault))
        yield at, tag, sheet[at + 3:at + 3 + size]
        at, last = at + 3 + size, tag
        seen.add(tag)
    for tag in sorted(TAGS):
        if TAGS[tag].wanted and tag not in seen:
            raise Fault(TAG, len(sheet), 'tag %d (%s) is missing' % (tag, TAGS[tag].name))
