"""The fixed codes as document 01, the specification, defines them in parts 6 to 8: the extended Golay code (24,12) and the (72,64) code;
and 02, No. 3: the codes of 16 and 32 data bits."""
from itertools import combinations
from typing import NamedTuple

from codes import codewords, weight, word

# ---- Golay: G is P, then the identity; places 0 to 11 are checks, 12 to 23 the message
FIRST = '100011101101'
P = [FIRST[i:11] + FIRST[:i] + '1' for i in range(11)] + ['1' * 11 + '0']
GOLAY_ROWS = tuple(word(p) | 1 << 12 + i for i, p in enumerate(P))
GOLAY_MESSAGES = {c: u for u, c in enumerate(codewords(GOLAY_ROWS))}


def patterns(n, t):
    return [sum(1 << p for p in places) for places in combinations(range(n), t)]


LIGHT = [e for t in range(4) for e in patterns(24, t)]


def golay_decode(w):
    """The word and its count: the codeword at distance at most 3, else far."""
    near = [w ^ e for e in LIGHT if w ^ e in GOLAY_MESSAGES]
    assert len(near) <= 1
    return (near[0], weight(near[0] ^ w)) if near else (w, 255)


# ---- codes by columns: a word is the check bits, then the data bits; check bit j has column 2^j
class SplitCode(NamedTuple):
    checks: int
    columns: list                 # of all places

    def word(self, check, data):
        return check | data << self.checks

    def parts(self, w):
        return w % 2**self.checks, w >> self.checks

    def syndrome(self, w):
        s = 0
        for p, column in enumerate(self.columns):
            if w >> p & 1:
                s ^= column
        return s

    def encode(self, data):
        """The only check bits with which the data is a codeword."""
        found = [c for c in range(2**self.checks) if self.syndrome(self.word(c, data)) == 0]
        assert len(found) == 1
        return found[0]

    def decode(self, w):
        """The word and its count, 255 where it is far."""
        s = self.syndrome(w)
        if s == 0:
            return w, 0
        return (w ^ 1 << self.columns.index(s), 1) if s in self.columns else (w, 255)


def split_code(checks, data_columns):
    code = SplitCode(checks, [1 << j for j in range(checks)] + data_columns)
    assert len(set(code.columns)) == len(code.columns) and all(weight(c) % 2 == 1 and c < 2**checks for c in code.columns)
    return code


def threes(checks):
    return [b for b in range(2**checks) if weight(b) == 3]


HSIAO = split_code(8, threes(8) + [0x1F, 0x3E, 0x7C, 0xF8, 0xF1, 0xE3, 0xC7, 0x8F])
assert all(sum(c >> j & 1 for c in HSIAO.columns) == 27 for j in range(8))

# 02, No. 3: the first numbers of weight 3 within the check bits; and the totals of ones of 000's Table 4.1
WIDTHS = {16: split_code(6, threes(6)[:16]), 32: split_code(7, threes(7)[:32]), 64: HSIAO}
assert all(len(code.columns) == code.checks + width for width, code in WIDTHS.items())
assert [sum(map(weight, code.columns)) for code in WIDTHS.values()] == [54, 103, 216]
