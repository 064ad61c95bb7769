"""Weights and Describe; published weight tables and the MacWilliams identity are asserted."""
from collections import Counter
from math import comb

from codes import check_rows, codewords, lightest, nonzero, reduced, row_sum, weight, weight_counts, word
from fixed_codes import GOLAY_ROWS
from named_codes import BCH, FIVE, GOLAY, HAMMING, HAMMING_15, LARGE, ONES_13, SHEET, extended, polynomial, reed_muller, series, simplex
from records import describe, title, weights_call


# ---- weights
def hamming_table(n):
    """The recurrence of the Hamming code's weights: i A_i = C(n, i - 1) - A_(i-1) - (n - i + 2) A_(i-2)."""
    a = [1, 0]
    for i in range(2, n + 1):
        x = comb(n, i - 1) - a[i - 1] - (n - i + 2) * a[i - 2]
        assert x % i == 0
        a.append(x // i)
    return {j: c for j, c in enumerate(a) if c}


def extended_table(table):
    out = Counter()
    for j, c in table.items():
        out[j + j % 2] += c
    return dict(out)


def even(n):
    return {j: comb(n, j) for j in range(0, n + 1, 2)}


BCH_TABLE = {0: 1, 5: 18, 6: 30, 7: 15, 8: 15, 9: 30, 10: 18, 15: 1}
GOLAY_TABLE = {0: 1, 7: 253, 8: 506, 11: 1288, 12: 1288, 15: 506, 16: 253, 23: 1}


def described(name, n, k, rows, table=None):
    """The weights that occur, each with its count, are those of the table, where there is one."""
    title(name)
    assert table is None or {j: c for j, c in enumerate(weight_counts(codewords(rows))) if c} == table
    describe(n, k, rows)
    weights_call(n, k, rows)


def published_weights():
    assert hamming_table(7) == {0: 1, 3: 7, 4: 7, 7: 1}
    described('Hamming', 7, 4, HAMMING, hamming_table(7))
    described('Hamming', 15, 11, HAMMING_15, hamming_table(15))
    described('extended Hamming', 8, 4, extended(HAMMING, 7), {0: 1, 4: 14, 8: 1})
    described('extended Hamming', 16, 11, extended(HAMMING_15, 15), extended_table(hamming_table(15)))
    described('simplex', 7, 3, simplex(3), {0: 1, 4: 7})
    described('simplex', 15, 4, simplex(4), {0: 1, 8: 15})
    described('Reed-Muller', 8, 4, reed_muller(3), {0: 1, 4: 14, 8: 1})
    described('Reed-Muller', 16, 5, reed_muller(4), {0: 1, 8: 30, 16: 1})
    described('BCH', 15, 7, BCH, BCH_TABLE)
    described('BCH', 15, 5, polynomial(5, 10, 8, 5, 4, 2, 1, 0), {0: 1, 7: 15, 8: 15, 15: 1})
    described('Golay', 23, 12, GOLAY, GOLAY_TABLE)
    described('extended Golay', 24, 12, GOLAY_ROWS, extended_table(GOLAY_TABLE))
    described('repetition', 2, 1, (word('11'),), {0: 1, 2: 1})
    described('repetition', 13, 1, ONES_13, {0: 1, 13: 1})
    described('single place', 2, 1, (word('01'),), {0: 1, 1: 1})
    described('two places', 13, 1, (word('1000000000001'),), {0: 1, 2: 1})
    described('single parity check', 13, 12, polynomial(12, 1, 0), even(13))
    described('single parity check', 17, 16, polynomial(16, 1, 0), even(17))
    described('(28,16) by a series', 28, 16, LARGE)


def no_row():
    """Codes whose lightest codeword is no row."""
    three = 31, 47, 992
    ten = 1897418, 3631187, 2347856, 3593944, 3876421, 3276667, 1953078, 1895123, 2130041, 3067495
    for n, rows, chosen in ((10, three, (0, 1)), (22, ten, (1, 4, 8, 9))):
        described('lightest codeword no row', n, len(rows), rows)
        assert lightest(rows) == row_sum(rows, sum(1 << i for i in chosen)) and lightest(rows) not in rows


def mixed(rows, seed):
    """Another matrix of the code: rows exchanged, and rows added to rows."""
    out = list(rows)
    for x in series(8 * len(rows), seed):
        a, b = (x >> 8) % len(rows), (x >> 20) % len(rows)
        if x >> 31:
            out[a], out[b] = out[b], out[a]
        elif a != b:
            out[a] ^= out[b]
    return tuple(out)


def one_code():
    """02, No. 2: one lightest codeword, whatever rows were typed; the first met is often another."""
    others = 0
    for name, n, rows, found in (
            ('(5,2)', 5, FIVE, word('11010')), ('(7,4)', 7, HAMMING, word('1101000')), ('(6,3)', 6, SHEET, word('111000')),
            ('Hamming', 15, HAMMING_15, 0x13), ('BCH', 15, BCH, 0x1D1), ('Golay', 23, GOLAY, 0xAE3),
            ('extended Golay', 24, GOLAY_ROWS, 0x1B71), ('Reed-Muller', 16, reed_muller(4), 0xFF), ('(28,16)', 28, LARGE, 0x21800),
            ('(13,1)', 13, ONES_13, 2**13 - 1), ('dmin 1', 28, tuple(2**(27 - i) for i in range(16)), 2**12)):
        title(f'one code: {name}')
        typed = rows, tuple(reversed(rows)), *(mixed(rows, seed) for seed in range(4))
        for m in typed + ((word('10111'), word('11010')),) * (rows == FIVE):
            assert set(codewords(m)) == set(codewords(rows)) and lightest(m) == found
            describe(n, len(m), m)
            weights_call(n, len(m), m)
            others += next(w for w in nonzero(m) if weight(w) == weight(found)) != found
    assert others > 30


def krawtchouk(n, j, i):
    return sum((-1)**s * comb(i, s) * comb(n - i, j - s) for s in range(j + 1))


def dual(name, n, k, rows, same=None):
    """The MacWilliams identity between the weights of a code and those of its dual, whose rows are the code's check rows."""
    assert same is None or set(codewords(rows)) == set(codewords(same)) and rows != same
    assert sorted(rows) != sorted(reduced(rows))
    described(name, n, k, rows)
    orthogonal = [w for w in range(2**n) if all(weight(w & r) % 2 == 0 for r in rows)]
    checks = tuple(check_rows(n, rows))
    assert sorted(codewords(checks)) == orthogonal
    described('its dual', n, n - k, checks)
    a, b = weight_counts(codewords(rows)), weight_counts(orthogonal)
    assert all(2**k * b[j] == sum(a[i] * krawtchouk(n, j, i) for i in range(n + 1)) for j in range(n + 1))


def duals():
    dual('Hamming, scrambled', 7, 4, (78, 29, 88, 49), HAMMING)
    dual('Hamming, scrambled', 15, 11, (2388, 28921, 14393, 9804, 18902, 21004, 19646, 24099, 22490, 24850, 16314), HAMMING_15)
    dual('extended Hamming, scrambled', 16, 11, (23790, 3929, 11186, 57164, 54444, 28300, 2181, 64908, 45345, 64101, 30690),
         extended(HAMMING_15, 15))
    dual('by chance', 12, 6, (2552, 1047, 3039, 1469, 3258, 2829))
