"""The codes of the cases: those of document 01, the specification, published ones, and one by a series."""
from codes import weight, word

MAX = 2**32 - 1


def series(count, seed):
    x = seed
    for _ in range(count):
        x = (x * 1664525 + 1013904223) % 2**32
        yield x


def polynomial(k, *exponents):
    """Row i is the generator polynomial times x^i."""
    g = sum(1 << e for e in exponents)
    return tuple(g << i for i in range(k))


def extended(rows, n):
    """An overall parity place n."""
    return tuple(r | weight(r) % 2 << n for r in rows)


def simplex(m):
    return tuple(sum((j + 1 >> i & 1) << j for j in range(2**m - 1)) for i in range(m))


def reed_muller(m):
    return (2**2**m - 1,) + tuple(sum((j >> i & 1) << j for j in range(2**m)) for i in range(m))


HAMMING = tuple(word(r) for r in ('1101000', '0110100', '1110010', '1010001'))
FIVE = word('10111'), word('01101')
SHEET = 0x31, 0x2A, 0x1C
LARGE = tuple(x >> 4 for x in series(16, 19))
HAMMING_15 = polynomial(11, 4, 1, 0)
GOLAY = polynomial(12, 11, 9, 7, 6, 5, 1, 0)
BCH = polynomial(7, 8, 7, 6, 4, 0)
FALLING = tuple([2**(27 - i) + 2**i for i in range(12)] + [2**15, 2**14, 2**13, 2**12])
GAPS = 3360, 96, 2208, 1184
ONES_13 = (2**13 - 1,)

# 02, No. 7: the words of even weight of the (31,21) BCH code; rows of that code and 32 ones; a one of twelve check places for each row
EVEN_BCH = polynomial(20, 11, 8, 7, 5, 4, 3, 1, 0)
LARGEST = polynomial(19, 10, 9, 8, 6, 5, 3, 0) + (MAX,)
PAIRS = tuple(2**i + 2**(20 + i % 12) for i in range(20))
