"""Decode in both readings; demand 3's statements on sent codewords are asserted."""
import random

from cases_linear import every
from codes import codewords, dmin, leaders, row_sum, weight, word
from fixed_codes import GOLAY_ROWS
from named_codes import BCH, FIVE, GOLAY, HAMMING, LARGE, MAX, ONES_13, SHEET, extended, series
from records import NEAREST, again, decoded, encoded, read, title


# ---- Decode
def radii(n, k, rows):
    for r in (0, 1, 2, 3, 2**31, MAX):
        decoded(n, k, rows, r, [12, 5])


def worked():
    ws = word('1001111'), word('1000100')
    title('Decode: (7,4)')
    assert decoded(7, 4, HAMMING, NEAREST, ws)[0][:2] == [word('1001011'), word('1000110')]
    assert decoded(7, 4, HAMMING, 1, ws)[1][:2] == [1, 1]
    radii(7, 4, HAMMING)
    title('Decode: (5,2)')
    assert {word('00110'), word('10100')} == {e for e in leaders(5, FIVE) if weight(e) == 2}
    decoded(5, 2, FIVE, NEAREST, [0, 12, 5, 17])
    radii(5, 2, FIVE)
    title("Decode: the sheet's code")
    decoded(6, 3, SHEET, NEAREST, [0x23, 0x1F])
    decoded(6, 3, SHEET, 1, [0x23, 0x1F])
    title('Decode: (13,1)')
    decoded(13, 1, ONES_13, 6, [4096], 1, 1, 4096)


def lent_lists():
    three = [12, 31, 5]
    title('lists longer than is needed')
    decoded(5, 2, FIVE, NEAREST, three, 8, 5, 12)
    decoded(5, 2, FIVE, 1, three, 4, 7, 9)
    title('lists as long as is needed')
    decoded(5, 2, FIVE, NEAREST, three, 3, 3, 8)
    decoded(5, 2, FIVE, NEAREST, [25] * 512, 512, 512, 8)
    title('no words')
    decoded(5, 2, FIVE, NEAREST, [])
    decoded(5, 2, FIVE, 1, [])
    decoded(5, 2, FIVE, NEAREST, [], 0, 0, 8)
    title('lists that another code left')
    again(5, 2, (24, 7), FIVE, 4, 4, 9)
    again(5, 2, FIVE, (24, 7), 2, 3, 8)
    again(7, 4, HAMMING, (1, 2, 4, 8), 5, 5, 9)


def decode_refusals():
    title('cause 1: n, k or n - k out of range')
    decoded(5, 0, (), NEAREST, [0])
    decoded(29, 16, (1,) * 16, NEAREST, [0])
    decoded(14, 1, (1,), 0, [0])
    decoded(16, 16, (1,) * 16, 0, [0])
    title('cause 2: row count')
    decoded(5, 2, (29, 22, 8), NEAREST, [0])
    decoded(5, 2, (29,), 1, [0])
    title('cause 3: a row outside n places')
    decoded(5, 2, (29, 54), NEAREST, [0])
    decoded(5, 2, (29 + 2**31, 54), 1, [0])
    title('cause 4: dependent rows')
    decoded(4, 3, (3, 5, 6), NEAREST, [0])
    decoded(5, 2, (29, 29), 1, [0])
    decoded(5, 2, (0, 22), NEAREST, [0])
    title('cause 5: radius, only within one')
    for rows, readings in ((FIVE, (2, NEAREST)), ((29, 1), (1, 0, NEAREST))):
        for r in readings:
            decoded(5, 2, rows, r, [31])
    title('cause 6: too many words')
    for r in (NEAREST, 1):
        decoded(5, 2, FIVE, r, [25] * 513, 513, 513, 8)
    title('cause 7: a word outside its places')
    decoded(5, 2, FIVE, NEAREST, [0, 31, 32, 64])
    decoded(5, 2, FIVE, 1, [2**31, 0])
    decoded(5, 2, FIVE, NEAREST, [31, 30, 29, MAX])
    title('cause 8: codeword list or counts too short')
    decoded(5, 2, FIVE, NEAREST, [12, 31, 5], 2, 3, 8)
    decoded(5, 2, FIVE, NEAREST, [12, 31, 5], 3, 2, 8)
    decoded(5, 2, FIVE, 1, [31], 0, 1, 8)
    decoded(5, 2, FIVE, 1, [31], 1, 0, 8)
    title('cause 9: working list too short')
    decoded(5, 2, FIVE, NEAREST, [12, 31], 3, 3, 7)
    decoded(5, 2, FIVE, NEAREST, [], 3, 3, 7)
    decoded(5, 2, FIVE, NEAREST, [12, 31], 3, 3, 0)
    decoded(13, 1, ONES_13, 6, [1], 1, 1, 4095)


def mixed_decode():
    title('1 to 6, each with all later causes')
    bad = [MAX] * 513
    for n, k, rows, r in ((14, 1, (64, 64, 0), MAX), (5, 2, (64, 64, 0), MAX), (5, 2, (64, 64), MAX), (5, 2, (29, 29), MAX),
                          (5, 2, FIVE, MAX), (5, 2, FIVE, NEAREST)):
        decoded(n, k, rows, r, bad, 2, 3, 7)
    title('4 and 5')
    decoded(5, 2, (29, 29), 6, [0])
    decoded(5, 2, (29, 29), NEAREST, [0])
    title('5 and 6')
    decoded(5, 2, FIVE, 2, [25] * 513)
    decoded(5, 2, FIVE, NEAREST, [25] * 513)
    title('6 and 7')
    decoded(5, 2, FIVE, 1, [32] * 513)
    title('7 and 8')
    decoded(5, 2, FIVE, NEAREST, [0, 1, 2, 3, 32])
    title('8 and 9')
    decoded(5, 2, FIVE, NEAREST, [0, 1, 2, 3, 31], 4, 6, 7)
    decoded(5, 2, FIVE, NEAREST, [0, 1, 2, 3, 31], 6, 6, 7)


def every_reading(n, k, rows, first, m):
    """The words from the first on, nearest and within each radius; the next radius is refused."""
    t = (dmin(rows) - 1) // 2
    for r in [NEAREST, *range(t + 1)]:
        decoded(n, k, rows, r, range(first, first + m), 513, 513, 65)
    decoded(n, k, rows, t + 1, [0], 1, 1, 64)


def small_codes():
    title('every received word')
    for n, rows in ((2, (2,)), (2, (3,)), (4, (3, 14)), (5, FIVE), (6, SHEET), (7, HAMMING), (7, (78, 29, 88, 49)), (7, (127,)),
                    (8, extended(HAMMING, 7)), (8, (177, 116, 250, 94)), (8, (83, 48, 230, 203)), (9, (29, 228, 380)),
                    (10, (75, 359, 204, 706, 184))):
        for first in range(0, 2**n, 512):
            every_reading(n, len(rows), rows, first, min(2**n, 512))


def received(n, sent, i, x):
    """0, 1, .. 6 places changed, any word at all, and again."""
    if i % 8 == 7:
        return x >> 32 - n
    e = sum(1 << ((x >> 8) + 11 * j) % n for j in range(i % 8))
    assert weight(e) == i % 8
    return sent ^ e


def demand_3(d, reading, sent, words, out, counts):
    """What is promised of a codeword that was changed in p places."""
    reach = (d - 1) // 2 if reading is NEAREST else reading
    for c, w, answer, count in zip(sent, words, out, counts):
        p = weight(c ^ w)
        assert p > reach or (answer, count) == (c, p)
        assert reading is NEAREST or not reach < p <= d - 1 - reach or (answer, count) == (w, 255)


def sent_codewords(name, n, k, rows, seed):
    title('512 words: ' + name)
    sent = [codewords(rows)[(x >> 8) % 2**k] for x in series(512, seed)]
    words = [received(n, c, i, x) for i, (c, x) in enumerate(zip(sent, series(512, seed)))]
    t = (dmin(rows) - 1) // 2
    for r in [NEAREST, t] + [1] * (t > 1):
        demand_3(dmin(rows), r, sent, words, *decoded(n, k, rows, r, words, 514, 515, 4099))


def published_codes():
    sent_codewords('BCH', 15, 7, BCH, 15)
    sent_codewords('repetition', 13, 1, ONES_13, 13)
    sent_codewords('Golay', 23, 12, GOLAY, 23)
    assert dmin(GOLAY_ROWS) == 8
    sent_codewords('extended Golay', 24, 12, GOLAY_ROWS, 24)
    sent_codewords('(28,16) by a series', 28, 16, LARGE, 28)


# ---- codes and words by chance
def by_chance():
    """Lists about as long as is needed; some words are outside n places."""
    title('by chance')
    rng = random.Random(5)

    def about(size):
        return max(0, size + rng.randrange(-1, 4))
    for _ in range(60):
        k = rng.randrange(1, 6)
        n = k + rng.randrange(1, 6)
        rows = tuple(rng.randrange(1, 2**n) for _ in range(k))
        words = [rng.randrange(2**n + 2**n // 16) for _ in range(rng.randrange(6))]
        m = len(words)
        every(n, k, rows)
        encoded(n, k, rows, [w >> n - k for w in words], about(m))
        read(n, k, rows, [row_sum(rows, w) for w in words], about(m))
        for r in (NEAREST, 0, 1, 2):
            decoded(n, k, rows, r, words, about(m), about(m), about(2**(n - k)))
