"""The leaders of all syndromes, with the number of words tried."""
import random

from codes import order, word
from fixed_codes import GOLAY_ROWS
from named_codes import BCH, FIVE, GOLAY, HAMMING, HAMMING_15, LARGE, ONES_13, SHEET, extended, reed_muller, simplex
from records import leaders_call, title


def even(n):
    """The words of even weight."""
    return tuple(1 << i | 1 << n - 1 for i in range(n - 1))


def shows(n, rows, number, last=None):
    """The list is one longer than is needed."""
    r = n - len(rows)
    found, out = leaders_call(n, len(rows), rows, 2**r + 1)
    assert found == number
    assert last in (None, max(out[:2**r], key=order))


def words_tried():
    title('leaders: words tried')
    shows(7, HAMMING, 8, 0x40)
    shows(5, FIVE, 12, 0x0C)
    shows(6, SHEET, 11, 0x09)
    shows(2, (word('11'),), 2)
    shows(2, (word('10'),), 3)
    shows(13, ONES_13, 4096, 0x1F80)
    shows(17, even(17), 2)
    title('leaders: published codes')
    for n, rows, number in ((15, HAMMING_15, 16), (8, extended(HAMMING, 7), 17), (16, extended(HAMMING_15, 15), 37), (15, BCH, 569),
                            (23, GOLAY, 2048), (24, GOLAY_ROWS, 6150), (16, reed_muller(4), 8265), (15, simplex(4), 9950),
                            (28, LARGE, 29248)):
        shows(n, rows, number)


def single_places(k, first):
    """Rows with a single one, from this place on: every other place is 0 in each codeword."""
    return tuple(1 << first + i for i in range(k))


def zero_places():
    title('leaders: places that are always 0')
    for n, k in ((4, 2), (9, 4), (10, 9), (12, 6), (13, 1), (14, 3)):
        for first in (0, 1, n - k):
            leaders_call(n, k, single_places(k, first), 2**(n - k))


def leader_refusals():
    title('leaders: causes')
    for n, k, rows, slots in ((1, 1, (1,), 9), (29, 16, (1,) * 16, 4200), (14, 1, (1,), 4200), (5, 5, (1,) * 5, 9), (5, 2, (29,), 8),
                              (5, 2, (29, 54), 8), (5, 2, (29, 29), 8), (5, 2, (0, 22), 8), (5, 2, FIVE, 7), (5, 2, FIVE, 0),
                              (13, 1, ONES_13, 4095)):
        assert leaders_call(n, k, rows, slots)[0] == 0
    title('leaders: each with all later causes')
    for n, k, rows in ((14, 1, (64, 64, 0)), (5, 2, (64, 64, 0)), (5, 2, (64, 64)), (5, 2, (29, 29)), (5, 2, FIVE)):
        assert leaders_call(n, k, rows, 7)[0] == 0
    title('leaders: longer lists')
    for slots in (8, 9, 40, 41, 4200):
        leaders_call(5, 2, FIVE, slots)


def leaders_by_chance():
    title('leaders: by chance')
    rng = random.Random(4)
    for _ in range(120):
        k = rng.randrange(1, 9)
        n = k + rng.randrange(1, 8)
        rows = tuple(rng.randrange(1, 2**n) for _ in range(k))
        leaders_call(n, k, rows, max(0, 2**(n - k) + rng.randrange(-1, 4)))
