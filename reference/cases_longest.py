"""02, No. 7: words of up to 32 places, where every number is one, and up to 20 rows."""
from cases_decode import demand_3, sent_codewords
from cases_interleaving import there_and_back
from cases_leaders import shows
from cases_linear import both_ways, every, rows_and_checks
from cases_weights import described
from codes import dmin, leaders, lightest, matrix_cause, row_sum
from named_codes import EVEN_BCH, LARGEST, MAX, PAIRS
from records import NEAREST, bits_decoded, changed_bits, decoded, encoded, leaders_call, read, title

EVEN_BCH_TABLE = {0: 1, 6: 806, 8: 7905, 10: 41602, 12: 142600, 14: 251100, 16: 301971, 18: 195300, 20: 85560, 22: 18910, 24: 2635, 26: 186}
FAR = 7, MAX ^ 7, 7 << 29           # three places from a codeword of LARGEST, and no nearer to another


def longest_matrices():
    described('even-weight BCH', 31, 20, EVEN_BCH, EVEN_BCH_TABLE)
    assert dmin(EVEN_BCH) == 6 and lightest(EVEN_BCH) == 0x3C21
    shows(31, EVEN_BCH, 37851, 0x2185)
    described('(32,20), a row of 32 ones', 32, 20, LARGEST)
    assert dmin(LARGEST) == 5
    rows_and_checks(32, 20, LARGEST, [MAX, 2**31, MAX ^ 2**31, LARGEST[18]])
    shows(32, LARGEST, 211907, 0x800010C2)
    leaders_call(32, 20, LARGEST, 4095)
    described('(32,20), pairs of places', 32, 20, PAIRS)
    rows_and_checks(32, 20, PAIRS, [MAX])
    title('32 places: causes 2 and 4, never 3')
    every(32, 20, LARGEST + (1,), (2, 0))
    every(32, 20, LARGEST[:19], (2, 0))
    every(32, 20, LARGEST[:18] + (MAX, MAX), (4, 19))
    every(32, 20, (MAX,) * 20, (4, 1))
    every(32, 20, tuple(MAX - 2**i for i in range(20)))
    assert matrix_cause(32, 20, tuple(MAX - 2**i for i in range(20))) is None


def longest_words():
    title('32 places: encode and read back')
    assert row_sum(LARGEST, 2**19) == MAX
    both_ways(32, 20, LARGEST, [2**19, 0, 1, 2**20 - 1, 2**19 + 1, 0xAAAAA], 7, 8)
    for messages in ([0, 2**20, MAX], [2**19, 2**20 - 1, 2**31], [2**20]):
        encoded(32, 20, LARGEST, messages, 4)
    for words in ([MAX, MAX ^ 1], [2**31], [MAX, 0, MAX]):
        read(32, 20, LARGEST, words, 4)
    encoded(31, 20, EVEN_BCH, [1, 2**20], 2)
    read(31, 20, EVEN_BCH, [0, 2**31], 2)
    title('32 places: decode')
    assert any(e >> 31 for e in leaders(32, LARGEST))
    sent = [MAX, MAX, MAX, 0, 0, MAX, 0]
    words = [MAX, MAX ^ 2**31, MAX ^ 2**31 ^ 1, 2**31, *FAR]
    for r in (NEAREST, 2, 1, 0):
        out, counts = decoded(32, 20, LARGEST, r, words, 8, 8, 4097)
        demand_3(5, r, sent, words, out, counts)
        assert (out[0], counts[0]) == (MAX, 0) and (r == NEAREST or counts[4:7] == [255] * 3)
    for r in (3, MAX):
        decoded(32, 20, LARGEST, r, words, 8, 8, 4097)
    decoded(31, 20, EVEN_BCH, 2, [EVEN_BCH[19] ^ 1, 0, 2**31], 4, 4, 2048)
    sent_codewords('(32,20)', 32, 20, LARGEST, 32)


def longest_interleaved():
    title('32 places: interleaved')
    words = [MAX, 0, MAX, *(row_sum(LARGEST, 0x9E37 * i) for i in range(13))]
    there_and_back(32, LARGEST, [2**31], 1)
    bits = there_and_back(32, LARGEST, words, 0)
    changed = set(range(480, 512))
    out, counts = bits_decoded(32, 20, LARGEST, 2, 16, changed_bits(bits, changed), 16, 16, 4096)
    assert out == words and counts == [2] * 16
