"""The numbers of a refusal: what each means, the value V beside it and what to do. 11 stays unused. docs/REFUSALS.md has the
same table, which this file prints when it is run."""
from typing import NamedTuple

NOTHING, ROW, WORD, BYTE = '0', 'the first such row, from 0', 'the first such word, from 0', 'the byte of the sheet, from 0'


class Cause(NamedTuple):
    meaning: str                  # {} stands for the value
    value: str
    remedy: str


CAUSES = {
    1: Cause('n, k or n - k is out of range: n is 2 to 32, k is 1 to 20, n - k is 1 to 12', NOTHING,
             'Compare n and k with the matrix.'),
    2: Cause('the matrix has not exactly k rows', NOTHING,
             'Count the rows: one is missing or one too many, or k is wrong.'),
    3: Cause('row {} has a one at place n or beyond', ROW,
             'Compare this row with the matrix: it has a digit too many, or n is wrong.'),
    4: Cause('row {} is a sum of earlier rows (a zero row is the empty sum)', ROW,
             'Compare this row and those before it with the matrix: one is mistyped or stands twice.'),
    5: Cause('the radius r is too large: 2 r + 1 is above the minimum distance', NOTHING,
             'Take a smaller radius: at most t, the fourth number that nearest reading prints for this matrix.'),
    6: Cause('there are more than 512 words', NOTHING,
             'Split the batch.'),
    7: Cause('word {} has a one outside its places (n for a word, k for a message)', WORD,
             'Compare this word with what was received.'),
    8: Cause('an output list is shorter than the words', NOTHING,
             'Lend a slot for each word, in the counts too.'),
    9: Cause('the working list is shorter than 2^(n - k)', NOTHING,
             'Lend 2^(n - k) entries; 4,096 are enough for every code.'),
    10: Cause('word {} is to be read back and is no codeword', WORD,
              'Decode it first; a far word has no message.'),
    12: Cause('the sheet is cut or longer than 4,096 bytes, or the field at byte {} has a wrong length', BYTE,
              'See what tools/show_sheet says of the sheet, and make it again.'),
    13: Cause('the tag at byte {} is unknown or does not rise, or one is missing at the end', BYTE,
              'See what tools/show_sheet says of the sheet, and make it again.'),
    14: Cause('the width is none of 16, 32 and 64', NOTHING,
              'Give the number of data bits of the code: 16, 32 or 64.'),
    15: Cause('the data or check bits go beyond those of the width', NOTHING,
              'Compare the word with the width: 16 data bits have 6 check bits, 32 have 7, 64 have 8.'),
    16: Cause('the depth is out of range: it is 1 to 16', NOTHING,
              'Send 1 to 16 words at a time, and sort back by the same number.'),
    17: Cause('the bits are not depth times n bytes or, when received, have one above 1', NOTHING,
              'Count the bytes, and compare depth and n with those that were sent by; each byte is one bit, 0 or 1.'),
}


def table():
    """Its lines in Markdown."""
    lines = ['| Number | Meaning | V, the value beside it | What to do |', '|---|---|---|---|']
    return lines + ['| %d | %s | %s | %s |' % (number, c.meaning.format('V'), c.value, c.remedy) for number, c in CAUSES.items()]


if __name__ == '__main__':
    print('\n'.join(table()))
