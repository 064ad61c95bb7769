"""Interleaved words: the bits sent, the words sorted back, the decode within a radius after it, and bursts."""
import random

from cases_decode import demand_3
from codes import codewords, dmin, matrix_cause, sorted_back, travelling, word
from named_codes import BCH, FIVE, GOLAY, HAMMING, HAMMING_15, LARGE, MAX, ONES_13, SHEET, extended
from records import LINES, MARKS, bits_decoded, bursts, changed_bits, deinterleaved, interleaved, mended, said, title

THREE = 0x1D, 0x45, 0x7F


def worked_bits():
    title('interleaving: (7,4), three words')
    assert THREE == tuple(map(word, ('1011100', '1010001', '1111111'))) and set(THREE) <= set(codewords(HAMMING))
    bits = interleaved(7, 4, HAMMING, THREE, 21)
    assert ''.join(map(str, bits)) == '111001111101101001011'
    assert deinterleaved(7, 4, HAMMING, 3, bits, 4) == [*THREE, MARKS[0]]

    def after(radius, *changed):
        return bits_decoded(7, 4, HAMMING, radius, 3, changed_bits(bits, changed), 3, 3, 8)
    assert after(1, 10, 11, 12) == ([*THREE], [1, 1, 1])
    assert after(1, 9, 12) == ([word('1010001'), *THREE[1:]], [1, 0, 0])
    assert after(0, 9) == ([word('1010100'), *THREE[1:]], [255, 0, 0])
    title('interleaving: (7,4), other changes')
    for changed in ((), (0,), (20,), (18, 19, 20), (0, 20), (2, 3, 4), (0, 3, 6), range(3, 7), range(21)):
        after(1, *changed)
    after(0)


def ends(cause, call, *arguments):
    """With this cause, or done."""
    call(*arguments)
    assert LINES[-1].startswith(said(cause) + ',')


DEPTH, BITS, ROOM, WORK = (16, 0), (17, 0), (8, 0), (9, 0)


def interleaving_causes():
    title('interleave: 16, 17 and 7')
    for cause, words, slots in ((DEPTH, (), 0), (DEPTH, (), 7), (DEPTH, [0] * 17, 5), (DEPTH, [0] * 17, 119), (BITS, (0, 0x80), 13),
                                ((7, 1), (0, 0x80), 14), (BITS, (0, 0x7F), 15), (BITS, (0x7F,), 0), ((7, 0), (MAX, 0x80), 14),
                                ((7, 15), [0] * 15 + [2**31], 112)):
        ends(cause, interleaved, 7, 4, HAMMING, words, slots)
    title('deinterleave: 16, 17 and 8')
    zeros = [0] * 14
    for cause, depth, bits, slots in ((BITS, 2, zeros[1:] + [2], 1), (ROOM, 2, zeros, 1), (DEPTH, 0, zeros, 1), (DEPTH, 0, [], 2),
                                      (BITS, 2, [], 2), (DEPTH, 17, [1] * 119, 17), (DEPTH, 258, zeros, 2), (DEPTH, MAX, zeros, 2),
                                      (BITS, 2, zeros[1:], 2), (BITS, 2, zeros + [0], 2), (BITS, 7, zeros, 7), (ROOM, 2, zeros, 0)):
        ends(cause, deinterleaved, 7, 4, HAMMING, depth, bits, slots)
    title('interleaved decode: 5, 16, 17, 8 and 9')
    for cause, radius, depth, bits, *sizes in (((5, 0), 2, 17, zeros, 2, 2, 8), (BITS, 1, 2, zeros + [0], 2, 2, 8),
                                               (ROOM, 1, 2, zeros, 2, 1, 8), (ROOM, 1, 2, zeros, 1, 2, 8), (WORK, 1, 2, zeros, 2, 2, 7),
                                               (DEPTH, 1, 0, [], 0, 0, 8), (DEPTH, 1, 17, [0] * 119, 17, 17, 8),
                                               (DEPTH, 1, 258, zeros, 2, 2, 8), (DEPTH, 0, MAX, zeros, 2, 2, 8), (BITS, 1, 2, [], 2, 2, 8),
                                               (BITS, 1, 2, zeros[1:], 2, 2, 8), ((5, 0), 2**31, 2, zeros, 2, 2, 8)):
        ends(cause, bits_decoded, 7, 4, HAMMING, radius, depth, bits, *sizes)
    title('a byte above 1')
    for place, byte in ((0, 2), (6, 255), (13, 3)):
        bits = zeros[:place] + [byte] + zeros[place + 1:]
        ends(BITS, deinterleaved, 7, 4, HAMMING, 2, bits, 2)
        ends(BITS, bits_decoded, 7, 4, HAMMING, 1, 2, bits, 2, 2, 8)


def mixed_interleaving():
    """Several causes in one call: the first in the order 1 to 5, 16, 17, 7, 8, 9 is the answer."""
    title('interleaving: each with all later causes')
    for cause, n, k, rows in (((1, 0), 14, 1, (64, 64, 0)), ((2, 0), 5, 2, (64, 64, 0)), ((3, 0), 5, 2, (64, 64)), ((4, 1), 5, 2, (29, 29)),
                              (None, 5, 2, FIVE)):
        ends(cause or DEPTH, interleaved, n, k, rows, [MAX] * 17, 11)
        ends(cause or DEPTH, deinterleaved, n, k, rows, 17, [2] * 11, 1)
        ends(cause or (5, 0), bits_decoded, n, k, rows, 2, 17, [2] * 11, 1, 1, 7)
    ends(DEPTH, bits_decoded, 5, 2, FIVE, 1, 17, [2] * 11, 1, 1, 7)
    ends(BITS, interleaved, 5, 2, FIVE, [31, MAX], 11)
    ends((7, 1), interleaved, 5, 2, FIVE, [31, MAX], 10)
    for cause, bits in ((BITS, [2] * 11), (BITS, [0] * 11), (BITS, [1] * 9 + [2]), (ROOM, [1] * 10)):
        ends(cause, deinterleaved, 5, 2, FIVE, 2, bits, 1)
        ends(cause, bits_decoded, 5, 2, FIVE, 1, 2, bits, 1, 2, 7)
    ends(WORK, bits_decoded, 5, 2, FIVE, 1, 2, [1] * 10, 2, 2, 7)
    title('interleaving: n out of range')
    for n, k, depth in ((33, 20, 16), (33, 21, 2), (40, 16, 3), (0, 0, 0), (0, 1, 2)):
        rows = tuple(1 << i for i in range(k))
        ends((1, 0), interleaved, n, k, rows, [0] * depth, depth * n)
        ends((1, 0), deinterleaved, n, k, rows, depth, [1] * (depth * n), depth)
        ends((1, 0), bits_decoded, n, k, rows, 0, depth, [1] * (depth * n), depth, depth, 9)


def there_and_back(n, rows, words, extra):
    """The words need not be codewords."""
    bits = interleaved(n, len(rows), rows, words, len(words) * n)
    assert deinterleaved(n, len(rows), rows, len(words), bits, len(words) + extra) == words + [MARKS[0]] * extra
    return bits


def chosen(rng, n, depth):
    return [rng.randrange(2**n) for _ in range(depth)]


def depths():
    rng = random.Random(16)
    title('interleaving: depths')
    for depth in (2, 4, 5, 6, 15):
        there_and_back(5, FIVE, chosen(rng, 5, depth), 1)
    title('interleaving: depths 1 and 16')
    for n, rows in ((2, (3,)), (16, extended(HAMMING_15, 15)), (28, LARGE)):
        for depth in (1, 16):
            words = chosen(rng, n, depth)
            bits = there_and_back(n, rows, words, depth % 5)
            out, _ = bits_decoded(n, len(rows), rows, 0, depth, bits, depth + 2, depth + 1, 2**(n - len(rows)) + 3)
            assert out == words + [MARKS[0]] * 2
    for words in ([2**28 - 1] * 16, [0] * 15 + [2**28]):
        interleaved(28, 16, LARGE, words, 448)


def sent_words(rng, rows, depth):
    return rng.choices(codewords(rows), k=depth)


def reach(rows):
    """The largest admitted radius."""
    return (dmin(rows) - 1) // 2


def window(rng, depth, n, radius):
    """Changed bits that fit in depth times radius consecutive places, which may start at any bit."""
    first = rng.randrange(depth * n)
    return {b for b in range(first, first + depth * radius) if b < depth * n and rng.random() < 0.7}


def interleaved_bursts():
    """Changed bits that fit in depth times radius consecutive places are mended; and a window starts at any bit, also near the end."""
    rng = random.Random(63)
    title('every burst')
    assert bursts(7, 4, HAMMING, 1, THREE, True) == 152
    assert bursts(6, 3, SHEET, 1, sent_words(rng, SHEET, 4), True) == 336
    assert bursts(5, 2, FIVE, 1, FIVE, True) == 36
    assert bursts(5, 2, (29, 1), 0, (28, 0, 29), True) == 16
    assert bursts(13, 1, ONES_13, 6, ONES_13, True) == 512
    title('bursts of ones')
    assert bursts(15, 11, HAMMING_15, 1, sent_words(rng, HAMMING_15, 16), False) == 225
    assert bursts(23, 12, GOLAY, 3, sent_words(rng, GOLAY, 5), False) == 101
    title('bursts in any window')
    for n, rows in ((6, SHEET), (15, BCH), (13, ONES_13), (23, GOLAY)):
        for depth in (1, 7, 16):
            sent, changed = sent_words(rng, rows, depth), window(rng, depth, n, reach(rows))
            assert mended(n, len(rows), rows, reach(rows), sent, changed)
            bits = changed_bits(travelling(n, sent), changed)
            bits_decoded(n, len(rows), rows, reach(rows), depth, bits, depth, depth, 2**(n - len(rows)))


def near(rng, n, rows, depth, share):
    """Codewords of which about this share of the bits is changed, within the largest radius; demand 3 holds of each word."""
    sent = sent_words(rng, rows, depth)
    bits = [1 - b if rng.random() < share else b for b in travelling(n, sent)]
    answers = bits_decoded(n, len(rows), rows, reach(rows), depth, bits, depth, depth, 2**(n - len(rows)))
    demand_3(dmin(rows), reach(rows), sent, sorted_back(n, depth, bits), *answers)


def code_by_chance(rng):
    """Of one to four rows, now and then dependent."""
    k = rng.randrange(1, 5)
    n = k + rng.randrange(1, 8)
    return n, k, tuple(rng.randrange(1, 2**n) for _ in range(k))


def interleaved_by_chance():
    """Lists about as long as is needed, and some words outside n places; then codewords with changes anywhere."""
    title('interleaving: by chance')
    rng = random.Random(17)

    def about(size):
        return max(0, size + rng.choice((0, 0, 0, 0, 0, 0, 0, 1, 3, -1)))
    for depth in (1, 2, 3, 5, 9, 16, 17):
        n, k, rows = code_by_chance(rng)
        interleaved(n, k, rows, [rng.randrange(2**n + 2**n // 32) for _ in range(depth)], about(depth * n))
        bits = rng.choices((0, 1), k=about(depth * n))
        deinterleaved(n, k, rows, depth, bits, about(depth))
        bits_decoded(n, k, rows, rng.choice((0, 0, 1)), depth, bits, about(depth), about(depth), about(2**(n - k)))
    codes = (code_by_chance(rng) for _ in range(6))
    for n, _, rows in (found for found in codes if matrix_cause(*found) is None):
        there_and_back(n, rows, chosen(rng, n, rng.randrange(1, 17)), 0)
        near(rng, n, rows, rng.randrange(1, 17), 0.1)
    for n, rows, depth, share in ((7, HAMMING, 9, 0.2), (15, BCH, 16, 0.2), (13, ONES_13, 3, 0.4), (23, GOLAY, 5, 0.15)):
        near(rng, n, rows, depth, share)
