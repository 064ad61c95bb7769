"""The sheets of 512 random words for the programs: codes of the textbooks, and dense ones, with the goal of each."""
import collections
import itertools
import random

# The goal: at most so many times the instructions of the C program.
Sheet = collections.namedtuple("Sheet", "name goal content")

WORDS = 512
# A dense (28,16) code for which so few words are tried until every syndrome has its leader; most codes ask for more.
FEW_TRIES = 25354


def field(tag, numbers):
    return bytes([tag]) + (4 * len(numbers)).to_bytes(2, "big") + b"".join(x.to_bytes(4, "little") for x in numbers)


def content(n, rows, rng):
    words = [rng.getrandbits(n) for _ in range(WORDS)]
    return bytes([1, 0, 1, n, 2, 0, 1, len(rows)]) + field(3, rows) + field(5, words)


def hamming(checks, n):
    """Check places first; a column of two ones or more for each message place."""
    columns = [c for c in range(2 ** checks) if c.bit_count() > 1]
    return [columns[i] | 1 << (checks + i) for i in range(n - checks)]


def extended(n, rows):
    """With a place more, which makes every weight even."""
    return [r | (r.bit_count() & 1) << n for r in rows]


def dense(n, k, rng):
    """Random rows that are independent: the identity on the first k places, and rows added to rows."""
    rows = [1 << i | rng.getrandbits(n - k) << k for i in range(k)]
    for _ in range(4 * k):
        a, b = rng.sample(range(k), 2)
        rows[a] ^= rows[b]
    return rows


def bch(k):
    """Rows of the extended BCH code (32,21), a polynomial times x^i with a parity place, shortened to k rows and 12 places more. Row 5 is left
    out: without an earlier one, a place is always 0 or two places are always equal. The minimum distance is 6."""
    return [0x769 << i | 1 << (k + 11) for i in range(k + 1) if i != 5]


def reduced(n, rows):
    """The reduced rows by pivot, or 0."""
    table = [0] * n
    for r in rows:
        for q in range(n):
            if r >> q & 1:
                r ^= table[q]
        pivot = (r & -r).bit_length() - 1
        table = [x ^ r if x >> pivot & 1 else x for x in table]
        table[pivot] = r
    return table


def tries(n, rows, most):
    """How many words are tried until every syndrome has its leader, by rising weight; more than most are not counted."""
    table = reduced(n, rows)
    frees = [q for q in range(n) if not table[q]]
    columns = [1 << frees.index(q) if q in frees else sum((table[q] >> f & 1) << j for j, f in enumerate(frees)) for q in range(n)]
    left, tried = 2 ** len(frees) - 1, 1
    met = {0}
    for t in itertools.count(1):
        # of one weight by rising number, since the highest place stands first
        for places in sorted(itertools.combinations(range(n - 1, -1, -1), t)):
            tried += 1
            s = 0
            for p in places:
                s ^= columns[p]
            if s not in met:
                met.add(s)
                left -= 1
            if left == 0 or tried > most:
                return tried


def sheets():
    rng = random.Random(23)
    golay = [0xC75 << i for i in range(12)]
    muller = [0xFFFF, 0xAAAA, 0xCCCC, 0xF0F0, 0xFF00]
    few = next(rows for rows in (dense(28, 16, rng) for _ in itertools.count()) if tries(28, rows, FEW_TRIES) <= FEW_TRIES)
    codes = [("shortened Hamming (6,3)", 1.7, 6, hamming(3, 6)), ("Hamming (7,4)", 1.7, 7, hamming(3, 7)),
             ("extended Hamming (8,4)", 1.7, 8, extended(7, hamming(3, 7))), ("repetition (13,1)", 1.8, 13, [2 ** 13 - 1]),
             ("Hamming (15,11)", 1.3, 15, hamming(4, 15)), ("Reed-Muller (16,5)", 2.1, 16, muller), ("Golay (23,12)", 1.5, 23, golay),
             ("extended Golay (24,12)", 1.45, 24, extended(23, golay)), ("dense (28,16)", 0.45, 28, dense(28, 16, rng)),
             ("dense (28,16), at most %s words tried" % format(FEW_TRIES, ","), 0.45, 28, few), ("dense (32,20)", 0.3, 32, dense(32, 20, rng)),
             ("extended BCH (28,16)", 1.95, 28, bch(16)), ("extended BCH (32,20)", 0.4, 32, bch(20))]
    return [Sheet(name, goal, content(n, rows, rng)) for name, goal, n, rows in codes]
