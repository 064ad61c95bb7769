"""Binary linear block codes as document 01, the specification, and 02's requests define them, by walks over all codewords and words.

A word is the number whose bit i is place i. A cause is a pair of its number and the value beside it, or None. Rows are a tuple.
"""
from functools import lru_cache
from itertools import combinations
from math import comb

WIDTH = 32


def word(digits):
    """Place 0 is written leftmost."""
    return sum(1 << i for i, d in enumerate(digits) if d == '1')


def weight(w):
    return w.bit_count()


def row_sum(rows, message):
    w = 0
    for i, g in enumerate(rows):
        if message >> i & 1:
            w ^= g
    return w


@lru_cache(maxsize=None)
def codewords(rows):
    """Entry u is the codeword of message u."""
    out = [0]
    for g in rows:
        out += [c ^ g for c in out]
    return out


def nonzero(rows):
    return codewords(rows)[1:]


def dmin(rows):
    return min(map(weight, nonzero(rows)))


def lightest(rows):
    """02, No. 2: the smallest number among the nonzero codewords of weight dmin."""
    d = dmin(rows)
    return min(w for w in nonzero(rows) if weight(w) == d)


def weight_counts(words):
    counts = [0] * (WIDTH + 1)
    for w in words:
        counts[weight(w)] += 1
    return counts


# ---- parts 1 and 2
def first_dependent(rows):
    """The first row that is a sum of earlier rows, or None."""
    for i, g in enumerate(rows):
        if g in set(codewords(rows[:i])):
            return i
    return None


def leftmost(w):
    return (w & -w).bit_length() - 1


@lru_cache(maxsize=None)
def pivots(rows):
    """The places where some codeword has its leftmost one."""
    out = sorted({leftmost(w) for w in nonzero(rows)})
    assert len(out) == len(rows)
    return out


@lru_cache(maxsize=None)
def reduced(rows):
    """Row i is the one codeword that is 1 at pivot i and 0 at the other pivots."""
    mask = sum(1 << p for p in pivots(rows))
    found = {p: [w for w in codewords(rows) if w & mask == 1 << p] for p in pivots(rows)}
    assert all(len(ws) == 1 and leftmost(ws[0]) == p for p, ws in found.items())
    out = [found[p][0] for p in pivots(rows)]
    assert out == eliminated(rows)
    return out


def eliminated(rows):
    """A second opinion: elimination place by place, with a swap of rows."""
    m, i = list(rows), 0
    for p in range(WIDTH):
        s = next((a for a in range(i, len(m)) if m[a] >> p & 1), None)
        if s is None:
            continue
        m[i], m[s] = m[s], m[i]
        m = [r ^ m[i] if a != i and r >> p & 1 else r for a, r in enumerate(m)]
        i += 1
    return m


@lru_cache(maxsize=None)
def check_rows(n, rows):
    out = []
    for q in range(n):
        if q not in pivots(rows):
            out.append(1 << q | sum((r >> q & 1) << p for r, p in zip(reduced(rows), pivots(rows))))
    assert len(out) == n - len(rows)
    assert all(weight(g & h) % 2 == 0 for g in rows for h in out)
    return out


def syndrome(checks, w):
    return sum((weight(w & h) & 1) << j for j, h in enumerate(checks))


# ---- part 4
def order(e):
    return weight(e), e


@lru_cache(maxsize=None)
def leaders(n, rows):
    """For each syndrome the least word by weight, then by number. Place after place: of the words of p + 1 places with a syndrome the
    least has a one at place p, and is 2^p more than the least of those of p places with the syndrome less that place's, or has none."""
    checks = check_rows(n, rows)
    best = {0: 0}
    for p in range(n):
        column = syndrome(checks, 1 << p)
        more = {s ^ column: e + (1 << p) for s, e in best.items()}
        best = {s: min((b[s] for b in (best, more) if s in b), key=order) for s in best.keys() | more.keys()}
    return [best[s] for s in range(1 << len(checks))]


@lru_cache(maxsize=None)
def leader(rows, w):
    """Of the sums of the word and a codeword the lightest, of several the smallest number."""
    return min((w ^ c for c in codewords(rows)), key=order)


# ---- 02, No. 4
def place(n, w):
    """Of a word among those of n places by weight, then by number; the zero word's is 1."""
    alike = (sum(1 << p for p in places) for places in combinations(range(n), weight(w)))
    return 1 + sum(comb(n, t) for t in range(weight(w))) + sum(e < w for e in alike)


def tried_until_met(n, rows):
    """A second opinion, also on the leaders: the words in this order, until every syndrome has been met."""
    checks, met, count = check_rows(n, rows), {}, 0
    for t in range(n + 1):
        for w in sorted(sum(1 << p for p in places) for places in combinations(range(n), t)):
            met.setdefault(syndrome(checks, w), w)
            count += 1
            if len(met) == 1 << len(checks):
                assert leaders(n, rows) == [met[s] for s in range(len(met))]
                return count


@lru_cache(maxsize=None)
def tried(n, rows):
    """How many words the build of the leaders tries: the place of the leader that comes last."""
    last = max(leaders(n, rows), key=order)
    assert place(n, last) == tried_until_met(n, rows)
    return place(n, last)


# ---- the causes
def in_range(n, k):
    return 2 <= n <= 32 and 1 <= k <= 20 and 1 <= n - k <= 12


@lru_cache(maxsize=None)
def matrix_cause(n, k, rows):
    if not in_range(n, k):
        return 1, 0
    if len(rows) != k:
        return 2, 0
    for i, g in enumerate(rows):
        if g >= 2 ** n:
            return 3, i
    i = first_dependent(rows)
    return None if i is None else (4, i)


def radius_cause(rows, radius):
    return (5, 0) if radius is not None and 2 * radius + 1 > dmin(rows) else None


def work_cause(n, k, slots):
    return (9, 0) if slots < 2 ** (n - k) else None


def places_cause(words, places):
    for i, w in enumerate(words):
        if w >= 2 ** places:
            return 7, i
    return None


def room_cause(results, slots):
    return (8, 0) if slots < results else None


def list_cause(words, places, slots):
    if len(words) > 512:
        return 6, 0
    return places_cause(words, places) or room_cause(len(words), slots)


def depth_cause(depth):
    return None if 1 <= depth <= 16 else (16, 0)


def bits_cause(n, depth, bits, received):
    """17: another length than depth times n or, when received, a byte above 1."""
    return (17, 0) if len(bits) != depth * n or received and any(b > 1 for b in bits) else None


# ---- the operations on lists: the cause, or None and the lent lists are written
def leaders_of(n, k, rows, out):
    cause = matrix_cause(n, k, rows) or work_cause(n, k, len(out))
    if cause is None:
        out[:2 ** (n - k)] = leaders(n, rows)
    return cause


def encode(n, k, rows, words, out):
    cause = matrix_cause(n, k, rows) or list_cause(words, k, len(out))
    if cause is None:
        out[:len(words)] = [row_sum(rows, u) for u in words]
    return cause


def message(n, k, rows, words, out):
    cause = matrix_cause(n, k, rows) or list_cause(words, n, len(out))
    if cause:
        return cause
    messages = {c: u for u, c in enumerate(codewords(rows))}
    for i, w in enumerate(words):
        if w not in messages:
            return 10, i
    out[:len(words)] = [messages[w] for w in words]
    return None


def decode(n, k, rows, radius, words, out, counts, work):
    """A radius of None is the nearest reading."""
    cause = (matrix_cause(n, k, rows) or radius_cause(rows, radius)
             or list_cause(words, n, min(len(out), len(counts)))
             or work_cause(n, k, len(work)))
    if cause:
        return cause
    work[:2 ** (n - k)] = leaders(n, rows)
    checks = check_rows(n, rows)
    for i, w in enumerate(words):
        e = leaders(n, rows)[syndrome(checks, w)]
        # the walk over all codewords; of the largest codes for some words only
        assert k > 12 and i % 128 != 7 or e == leader(rows, w)
        if radius is not None and weight(e) > radius:
            out[i], counts[i] = w, 255
        else:
            out[i], counts[i] = w ^ e, weight(e)
    return None


# ---- 02, No. 5: with depth L, place j of word i travels as bit number L * j + i
def travelling(n, words):
    """The bits by their numbers."""
    bits = {len(words) * j + i: w >> j & 1 for i, w in enumerate(words) for j in range(n)}
    assert sorted(bits) == list(range(len(words) * n))
    return [bits[b] for b in range(len(bits))]


def sorted_back(n, depth, bits):
    """The words by their places."""
    return [sum(bits[depth * j + i] << j for j in range(n)) for i in range(depth)]


def interleave(n, k, rows, words, bits):
    """The depth is the length of the list of words; what the bits held before is not looked at."""
    depth = len(words)
    cause = matrix_cause(n, k, rows) or depth_cause(depth) or bits_cause(n, depth, bits, False) or places_cause(words, n)
    if cause is None:
        bits[:] = travelling(n, words)
    return cause


def deinterleave(n, k, rows, depth, bits, out):
    cause = matrix_cause(n, k, rows) or depth_cause(depth) or bits_cause(n, depth, bits, True) or room_cause(depth, len(out))
    if cause is None:
        out[:depth] = sorted_back(n, depth, bits)
    return cause


def decode_interleaved(n, k, rows, radius, depth, bits, out, counts, work):
    """Decode within the radius of the words sorted back: of its causes 6 and 7 never arise."""
    cause = matrix_cause(n, k, rows) or radius_cause(rows, radius) or depth_cause(depth) or bits_cause(n, depth, bits, True)
    if cause is None:
        cause = decode(n, k, rows, radius, sorted_back(n, depth, bits), out, counts, work)
        assert cause in (None, (8, 0), (9, 0))
    return cause
