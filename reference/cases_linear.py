"""Words, reduced rows, check rows, Encode and Message, and their causes."""
from codes import first_dependent, in_range, matrix_cause, pivots, reduced, row_sum, weight, word
from named_codes import FALLING, GAPS, HAMMING, LARGE, MAX, ONES_13, series
from records import (NEAREST, accept, bit, checks_call, decoded, describe, encoded, inside, numbers, read, reduced_call,
                     row_sum_call, title, weights_call)


# ---- words
def word_cases():
    title('words')
    for a, b in ((word('1011'), word('1101')), (MAX, MAX), (0, MAX), (2**31, 1)):
        numbers('sum', a, b, a ^ b)
    for w in (0, word('1001011'), MAX, 2**31):
        numbers('weight', w, 0, weight(w))
    for a, b in ((word('1001111'), word('1001011')), (121, 121), (0, MAX)):
        numbers('distance', a, b, sum(bit(a, p) != bit(b, p) for p in range(32)))
    for a, b in ((7, 15), (6, 15), (8, 7), (2**31, MAX), (MAX, MAX)):
        numbers('parity', a, b, sum(bit(a, p) and bit(b, p) for p in range(32)) % 2)
    for w, p in ((1, 0), (1, 1), (2**31, 31), (MAX, 32), (MAX, MAX)):
        numbers('place', w, p, bit(w, p) if p < 32 else 0)
    for w, m in ((88, 2), (88, 3), (MAX, MAX), (MAX, MAX - 1)):
        numbers('selected', w, m, w if bit(m, 0) else 0)
    for w, n in ((0, 0), (1, 0), (15, 4), (16, 4), (2**28 - 1, 28), (2**28, 28), (2**31, 31), (2**31 - 1, 31), (MAX, 32), (MAX, MAX)):
        numbers('fits', w, n, inside(w, n))


# ---- the (7,4) code and (28,16) codes
def both_ways(n, k, rows, messages, slots, back_slots):
    out = encoded(n, k, rows, messages, slots)
    assert read(n, k, rows, out[:len(messages)], back_slots)[:len(messages)] == list(messages)


def rows_and_checks(n, k, rows, words=(0,)):
    reduced_call(n, k, rows)
    for w in words:
        checks_call(n, k, rows, w)


def hamming():
    assert row_sum(HAMMING, word('1101')) == word('0001101') and row_sum(HAMMING, word('1011')) == word('1001011')
    assert reduced(HAMMING) == [word(r) for r in ('1000110', '0100011', '0010111', '0001101')]
    title('(7,4)')
    both_ways(7, 4, HAMMING, range(16), 18, 17)
    both_ways(7, 4, HAMMING, [word('1101'), word('1011'), 0, word('1101')], 4, 6)
    for x in (0, 11, 16, MAX):
        row_sum_call(HAMMING, x)
    accept(7, 4, HAMMING)
    rows_and_checks(7, 4, HAMMING, [0, word('0001101'), word('1001011')] + [1 << p for p in range(7)]
                    + [word('1001111'), word('1000100'), word('1111111'), MAX])
    title('(7,4), rows in another order')
    other = HAMMING[3], HAMMING[2], HAMMING[0], HAMMING[1]
    rows_and_checks(7, 4, other)
    both_ways(7, 4, other, [1, 2, 4, 8, 13], 5, 5)
    title('(7,4), every word read back')
    for w in range(128):
        read(7, 4, HAMMING, [w], 1)


def large():
    title('(28,16) by a series')
    assert not {9, 13, 17, 18} & set(pivots(LARGE)) and reduced(LARGE) != list(LARGE)
    assert list(LARGE) != sorted(LARGE) and list(LARGE) != sorted(LARGE, reverse=True)
    accept(28, 16, LARGE)
    rows_and_checks(28, 16, LARGE, [1, 2**27, LARGE[0], LARGE[15], LARGE[3] ^ 4096, 2**28 - 1])
    both_ways(28, 16, LARGE, [x >> 16 for x in series(512, 2026)], 514, 515)
    both_ways(28, 16, LARGE, [0, 1, 2**15, 2**16 - 1, 43690], 6, 7)
    title('(28,16), pivots at the last places')
    rows_and_checks(28, 16, FALLING)
    title('(12,4), places where every row is 0')
    assert all(g % 32 == 0 and not bit(g, 9) for g in GAPS)
    rows_and_checks(12, 4, GAPS)
    both_ways(12, 4, GAPS, [0, 1, 2, 4, 8, 15, 9], 8, 8)
    title('(13,1)')
    both_ways(13, 1, ONES_13, [0, 1], 3, 3)
    rows_and_checks(13, 1, ONES_13)
    rows_and_checks(13, 1, (2**12,))
    title('(2,1)')
    both_ways(2, 1, (2,), [1, 0], 3, 3)
    rows_and_checks(2, 1, (2,))


# ---- causes 1 to 4
def every(n, k, rows, cause=None):
    """Every operation on the matrix, with one zero word and two slots."""
    assert cause is None or matrix_cause(n, k, rows) == cause
    accept(n, k, rows)
    reduced_call(n, k, rows)
    checks_call(n, k, rows, 1)
    describe(n, k, rows)
    if matrix_cause(n, k, rows):
        weights_call(n, k, rows)
    encoded(n, k, rows, [0], 2)
    read(n, k, rows, [0], 2)
    decoded(n, k, rows, NEAREST, [0])


def ranges():
    def units(n, k):
        return tuple(2**i for i in range(min(k, 21)))
    title('cause 1: in range')
    for n, k in ((32, 20), (31, 19), (29, 17), (28, 16), (13, 1), (2, 1), (21, 20), (17, 16), (14, 2)):
        assert matrix_cause(n, k, units(n, k)) is None
        every(n, k, units(n, k))
    title('cause 1: out of range')
    for n, k in ((33, 21), (21, 21), (29, 16), (32, 19), (20, 20), (14, 1), (16, 16), (33, 20), (32, 21), (22, 21), (1, 1), (0, 0), (5, 0),
                 (28, 15), (3, 4), (MAX, 1), (1, MAX), (MAX, MAX), (MAX, MAX - 1)):
        every(n, k, units(n, k), (1, 0))
    title('each n and k')
    for n in range(36):
        for k in range(24):
            numbers('in range', n, k, in_range(n, k))


def matrices():
    title('cause 2: row count')
    five = HAMMING + (16,)
    for k, rows in ((4, five[:3]), (4, five), (4, ()), (1, ()), (1, five[:2])):
        every(7, k, rows, (2, 0))
    title('cause 3: a row outside')
    every(7, 4, (11, 22, 135, 128), (3, 2))
    every(7, 4, (128, 22, 39, 69), (3, 0))
    every(7, 4, (11, 22, 39, 2**31), (3, 3))
    every(7, 4, (11, 22, 167, 197), (3, 2))
    every(7, 4, (11, 22, 39, 128), (3, 3))
    every(13, 1, (8192,), (3, 0))
    every(28, 16, (1, 2**27, 2**28, MAX) + tuple(range(5, 17)), (3, 2))
    every(31, 19, (2**31 - 1, 2**30, 2**31) + (MAX,) * 16, (3, 2))
    title('cause 4: rows dependent')
    every(4, 3, tuple(word(r) for r in ('1100', '1010', '0110')), (4, 2))
    every(7, 4, (0,) + HAMMING[1:], (4, 0))
    every(2, 1, (0,), (4, 0))
    every(7, 4, (HAMMING[0], HAMMING[1], HAMMING[0], HAMMING[3]), (4, 2))
    every(7, 4, (69, 69, 69, 0), (4, 1))
    every(7, 4, HAMMING[:3] + (0,), (4, 3))
    every(12, 8, (11, 277, 550, 1097, 11 ^ 277 ^ 1097, 0, 550, 1), (4, 4))
    every(28, 16, FALLING[:15] + (row_sum(FALLING[:15], 2**15 - 1),), (4, 15))


# ---- causes 6 to 8 and 10, of Encode and Message
def batches():
    title('cause 6: too many words')
    for m in (513, 512):
        encoded(7, 4, HAMMING, [11] * m, 514)
        read(7, 4, HAMMING, [88] * m, 514)
    title('cause 7: a word outside its places')
    for ws in ([15, 3, 16, 31, MAX], [64, 0], [0, 15, 2**31]):
        encoded(7, 4, HAMMING, ws, 6)
    for ws in ([88, 105, 128, 255, MAX], [216, 0], [0, 127, 2**31]):
        read(7, 4, HAMMING, ws, 6)
    encoded(28, 16, LARGE, [65535, 65536], 3)
    read(28, 16, LARGE, [0, LARGE[5], 2**28], 3)
    title('cause 8: output list too short')
    for operation, ws in ((encoded, [11, 13, 1]), (read, [88, 105, 11])):
        for slots in (0, 2, 3):
            operation(7, 4, HAMMING, ws, slots)
    for slots in (511, 512):
        encoded(7, 4, HAMMING, [0] * 512, slots)
        read(7, 4, HAMMING, [0] * 512, slots)
    title('cause 10: no codeword')
    for ws in ([88, 0, 121, 1, 105], [17, 88], [88, 105, 127, 63]):
        read(7, 4, HAMMING, ws, 6)
    for last in (LARGE[2] ^ 2**27, LARGE[2]):
        read(28, 16, LARGE, [0] * 511 + [last], 512)


def mixed_batches():
    """Several causes in one call: the lowest number is the answer."""
    bad = [MAX] * 513

    def both(n, k, rows, words, slots):
        encoded(n, k, rows, words, slots)
        read(n, k, rows, words, slots)
    title('1 before all others')
    every(14, 1, (0, 0, MAX), (1, 0))
    every(0, 3, (0, 0, MAX), (1, 0))
    both(29, 16, (0, 0, MAX), bad, 2)
    title('2 before 3 and later')
    every(7, 4, (11, 11, MAX, 0, 0), (2, 0))
    both(7, 4, (11, 11, MAX, 0, 0), bad, 2)
    title('3 before 4 and later')
    every(7, 4, (11, 11, 128, 0), (3, 2))
    both(7, 4, (11, 11, 128, 0), bad, 2)
    title('4 before 6 and later')
    assert first_dependent((11, 22, 39, 29)) == 3
    both(7, 4, (11, 22, 39, 29), bad, 2)
    encoded(7, 4, (11, 22, 39, 29), bad[:1], 2)
    read(7, 4, (11, 22, 39, 29), bad[:1], 0)
    title('6 before 7 and later')
    both(7, 4, HAMMING, bad, 2)
    title('7 before 8 and 10')
    encoded(7, 4, HAMMING, [1, 16, 2], 2)
    read(7, 4, HAMMING, [1, 128, 2], 2)
    read(7, 4, HAMMING, [1, 128, 2], 4)
    title('8 before 10')
    read(7, 4, HAMMING, [1, 88, 2], 2)
    read(7, 4, HAMMING, [1, 88, 2], 0)
    title('no words')
    both(7, 4, HAMMING, [], 0)
    both(7, 4, HAMMING, [], 2)
    both(7, 4, (11, 11, 39, 69), [], 0)
