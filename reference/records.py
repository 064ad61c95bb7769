"""The records of crates/vectors and what the program prints for each, by the definitions of codes.py."""
from codes import (check_rows, codewords, decode, decode_interleaved, deinterleave, dmin, encode, interleave, leaders_of, lightest,
                   matrix_cause, message, reduced, row_sum, syndrome, tried, weight_counts)

MARKS = 777, 77, 7777             # what each slot holds that is lent: of a list of words, of counts, of a working list
NEAREST = None                    # a reading is that or a radius
ROWS, CHECKS, WEIGHTS = 20, 12, 33   # the entries of the lists that Describe answers
RECORDS, LINES = [], []


# ---- records and lines
def four(*numbers):
    return b''.join(x.to_bytes(4, 'big') for x in numbers)


def written(text, operation):
    """Parts of 16 bytes, each a record with operation 0; the last has the operation. The program prints them."""
    text = text.ljust(-(-len(text) // 16) * 16)
    for i in range(0, len(text), 16):
        RECORDS.append(text[i:i + 16].encode() + bytes([operation if i + 16 == len(text) else 0]))
    LINES.append(text)


def title(text):
    written('\n' + '-' * (16 - (len(text) + 2) % 16) + ' ' + text, 0)


OPERATIONS = {'sum': 1, 'weight': 2, 'distance': 3, 'parity': 4, 'place': 5, 'selected': 6, 'fits': 7, 'in range': 8,
              'accept': 10, 'reduced': 11, 'checks': 12, 'row sum': 13, 'weights': 14, 'describe': 15, 'leaders': 16,
              'encode': 20, 'message': 21, 'nearest': 22, 'within': 23, 'again': 24,
              'Golay encode': 30, 'Golay decode': 31, 'Golay message': 32, 'Golay messages': 33, 'Golay patterns': 34,
              '(72,64) encode': 40, '(72,64) decode': 41, '(72,64) counts': 42, '(72,64) changes': 43,
              'width encode': 50, 'width decode': 51, 'width counts': 52, 'width changes': 53,
              'interleave': 60, 'deinterleave': 61, 'interleaved': 62, 'bursts': 63}


def record(name, n, k, x, rows, rest, printed):
    """Three numbers and the rows, and for a batch the words and how many slots are lent."""
    written(f'\n{name} {n} {k} {x}:', OPERATIONS[name])
    RECORDS.append(four(n, k, x, len(rows), *rows, *rest))
    LINES.append(printed)


def said(cause):
    return ' done' if cause is None else ' refused %d %d' % cause


def items(xs):
    return ''.join(f' {x}' for x in xs)


def digest(xs):
    h = 1
    for x in xs:
        h = (h * 31 + x) % 2**32
    return h


def listed(xs, mark):
    return ',' + (items(xs) if len(xs) <= 40 else f' kept {xs.count(mark)} {digest(xs)}')


def padded(xs, size):
    return list(xs) + [0] * (size - len(xs))


# ---- operations on two numbers
def numbers(name, a, b, result):
    record(name, a, b, 0, (), (), f' {int(result)}')


def bit(w, p):
    return w >> p & 1


def inside(w, n):
    return not any(bit(w, p) for p in range(32) if p >= n)


# ---- operations on a matrix
def accept(n, k, rows):
    record('accept', n, k, 0, rows, (), said(matrix_cause(n, k, rows)))


def distance_part(n, k, rows):
    """The minimum distance and the lightest codeword."""
    return items((0, 0) if matrix_cause(n, k, rows) else (dmin(rows), lightest(rows)))


def rows_part(n, k, rows):
    return ', rows' + items(padded([] if matrix_cause(n, k, rows) else reduced(rows), ROWS))


def checks_part(n, k, rows):
    return ', checks' + items(padded([] if matrix_cause(n, k, rows) else check_rows(n, rows), CHECKS))


def weights_part(n, k, rows):
    return ', weights' + items([0] * WEIGHTS if matrix_cause(n, k, rows) else weight_counts(codewords(rows)))


def reduced_call(n, k, rows):
    record('reduced', n, k, 0, rows, (), said(matrix_cause(n, k, rows)) + rows_part(n, k, rows))


def checks_call(n, k, rows, x=0):
    c = matrix_cause(n, k, rows)
    s = 0 if c else syndrome(check_rows(n, rows), x)
    assert c or x >= 2**n or (s == 0) == (x in codewords(rows))
    record('checks', n, k, x, rows, (), f'{said(c)} {s}' + checks_part(n, k, rows))


def row_sum_call(rows, x):
    record('row sum', 0, 0, x, rows, (), f' {row_sum(rows, x)}')


def weights_call(n, k, rows):
    c = matrix_cause(n, k, rows)
    record('weights', n, k, 0, rows, (), said(c) + distance_part(n, k, rows) + weights_part(n, k, rows))


def describe(n, k, rows):
    c = matrix_cause(n, k, rows)
    assert c or sum(weight_counts(codewords(rows))) == 2**k
    parts = (part(n, k, rows) for part in (distance_part, rows_part, checks_part, weights_part))
    record('describe', n, k, 0, rows, (), said(c) + ''.join(parts))


def leaders_call(n, k, rows, slots):
    """The number of words tried, the check rows and the lent list; on a refusal zeros, and the list is as it was."""
    out = [MARKS[2]] * slots
    c = leaders_of(n, k, rows, out)
    number = 0 if c else tried(n, rows)
    checks = padded([] if c else check_rows(n, rows), CHECKS)
    record('leaders', n, k, 0, rows, (slots,), f'{said(c)} {number}, checks{items(checks)}' + listed(out, MARKS[2]))
    return number, out


# ---- operations on a batch of words
def coded(name, operation, n, k, rows, words, slots):
    out = [MARKS[0]] * slots
    c = operation(n, k, rows, words, out)
    record(name, n, k, 0, rows, (len(words), *words, slots), said(c) + listed(out, MARKS[0]))
    return out


def encoded(*call):
    return coded('encode', encode, *call)


def read(*call):
    return coded('message', message, *call)


def lists(*sizes):
    return [[mark] * size for mark, size in zip(MARKS, sizes)]


def decode_record(name, n, k, rows, x, words, lent, cause):
    sizes = [len(xs) for xs in lent]
    record(name, n, k, x, rows, (len(words), *words, *sizes), said(cause) + ''.join(map(listed, lent, MARKS)))


def decoded(n, k, rows, reading, words, *sizes):
    lent = lists(*(sizes or (4, 4, 9)))
    before = [list(xs) for xs in lent]
    c = decode(n, k, rows, reading, words, *lent)
    assert c is None or lent == before
    name, x = ('nearest', 0) if reading is NEAREST else ('within', reading)
    decode_record(name, n, k, rows, x, words, lent, c)
    return lent[0], lent[1]


def again(n, k, rows, words, *sizes):
    """On the lists that a Decode with rows and words exchanged has left."""
    lent = lists(*sizes)
    assert decode(n, k, words, NEAREST, rows, *lent) is None
    decode_record('again', n, k, rows, 0, words, lent, decode(n, k, rows, NEAREST, words, *lent))


# ---- operations on interleaved bits
def interleaved(n, k, rows, words, slots):
    """A bit list is lent like a list of counts."""
    bits = [MARKS[1]] * slots
    c = interleave(n, k, rows, words, bits)
    assert c is None or bits == [MARKS[1]] * slots
    record('interleave', n, k, 0, rows, (len(words), *words, slots), said(c) + listed(bits, MARKS[1]))
    return bits


def deinterleaved(n, k, rows, depth, bits, slots):
    out = [MARKS[0]] * slots
    c = deinterleave(n, k, rows, depth, bits, out)
    assert c is None or out == [MARKS[0]] * slots
    record('deinterleave', n, k, depth, rows, (len(bits), *bits, slots), said(c) + listed(out, MARKS[0]))
    return out


def bits_decoded(n, k, rows, radius, depth, bits, *sizes):
    lent, before = lists(*sizes), lists(*sizes)
    c = decode_interleaved(n, k, rows, radius, depth, bits, *lent)
    assert c is None or lent == before
    record('interleaved', n, k, radius, rows, (depth, len(bits), *bits, *sizes), said(c) + ''.join(map(listed, lent, MARKS)))
    return lent[0], lent[1]


def changed_bits(bits, changed):
    """Those with these numbers are changed."""
    return [1 - bit if b in changed else bit for b, bit in enumerate(bits)]


def mended(n, k, rows, radius, sent, changed):
    """Whether every word comes back from the bits with these ones changed, with the number of its changed places as its count."""
    depth = len(sent)
    bits, (out, counts, work) = [MARKS[1]] * (depth * n), lists(depth, depth, 2**(n - k))
    assert interleave(n, k, rows, sent, bits) is None
    assert decode_interleaved(n, k, rows, radius, depth, changed_bits(bits, changed), out, counts, work) is None
    return out == list(sent) and counts == [sum(depth * j + i in changed for j in range(n)) for i in range(depth)]


def bursts(n, k, rows, radius, sent, every):
    """In each window of depth times radius bits every pattern, or all ones: how many there are, and how many are mended, which is all."""
    width = len(sent) * radius
    patterns = range(2**width) if every else [2**width - 1]
    cases = [mended(n, k, rows, radius, sent, {first + t for t in range(width) if bit(pattern, t)})
             for first in range(len(sent) * n - width + 1) for pattern in patterns]
    assert all(cases)
    record('bursts', n, k, radius, rows, (len(sent), *sent, int(every)), items([len(cases), sum(cases)]))
    return len(cases)
