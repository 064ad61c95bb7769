#!/usr/bin/env python3
"""The programs over crates/sheet_program, each with its stored input: arguments CRATE and "stdin" give the input, CRATE alone what the
program prints for it, from documents 01 and 02 alone."""
import random
import sys

from codes import dmin, row_sum
from named_codes import LARGEST
from vectors_sheet import LONGEST, WORKED, output, sheet

def most_words():
    """512 words of 32 places within radius 2, codewords changed in 0 to 3 places."""
    rng = random.Random(5)
    assert dmin(LARGEST) == 5
    def word(changes):
        return row_sum(LARGEST, rng.randrange(1 << 20)) ^ sum(1 << p for p in rng.sample(range(32), changes))
    return sheet(32, 20, LARGEST, [word(i % 4) for i in range(512)], 2)

PROGRAMS = {
    'decode_sheet': WORKED,
    'decode_sheet_empty': b'',
    'decode_sheet_full': most_words(),
    'decode_sheet_too_long': LONGEST + bytes(3),
}
assert len(PROGRAMS['decode_sheet_too_long']) == 4097

def main():
    stored = PROGRAMS[sys.argv[1]]
    if sys.argv[2:] == ['stdin']:
        sys.stdout.buffer.write(stored)
    else:
        sys.stdout.write(output(stored))

if __name__ == '__main__':
    main()
