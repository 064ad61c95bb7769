#!/usr/bin/env python3
"""The sheets of crates/vectors_sheet (argument "stdin") and what the program prints for them, from document 01, the specification, and
document 02's closing line alone (codes.py)."""
import random
import sys
from itertools import combinations

from codes import decode, dmin, leader
from named_codes import LARGEST, MAX, PAIRS

# ---- the code sheet
class Refused(Exception):
    pass

def fields(s):
    if len(s) > 4096:
        raise Refused(12, 4096)
    at, last, got = 0, 0, {}
    while at < len(s):
        if len(s) - at < 3:
            raise Refused(12, at)
        tag, size = s[at], s[at + 1] * 256 + s[at + 2]
        if tag not in (1, 2, 3, 4, 5) or tag <= last:
            raise Refused(13, at)
        if at + 3 + size > len(s):
            raise Refused(12, at)
        if size != 1 if tag in (1, 2, 4) else size % 4:
            raise Refused(12, at)
        got[tag] = s[at + 3:at + 3 + size]
        at, last = at + 3 + size, tag
    if any(tag not in got for tag in (1, 2, 3, 5)):
        raise Refused(13, len(s))
    return got

def numbers(b):
    return [int.from_bytes(b[i:i + 4], 'little') for i in range(0, len(b), 4)]

def digits(n, w):
    return ''.join(str(w >> p & 1) for p in range(n))

def output(s):
    try:
        f = fields(s)
        n, k, rows, words = f[1][0], f[2][0], tuple(numbers(f[3])), numbers(f[5])
        out, counts = [0] * len(words), [0] * len(words)
        c = decode(n, k, rows, f[4][0] if 4 in f else None, words, out, counts, [0] * 4096)
        if c:
            raise Refused(*c)
    except Refused as r:
        return 'refused %d %d\n' % r.args
    d = dmin(rows)
    lines = ['%d %d %d %d' % (n, k, d, (d - 1) // 2)]
    lines += ['%s %s' % (digits(n, w), 'far' if count == 255 else count) for w, count in zip(out, counts)]
    lines.append(closing(lines[1:]))
    return '\n'.join(lines) + '\n'

def closing(lines):
    """The closing line, by what the lines of the words show."""
    shown = [line.split(' ')[1] for line in lines]
    clean, far = shown.count('0'), shown.count('far')
    places = sum(int(count) for count in shown if count != 'far')
    return 'clean %d mended %d far %d places %d' % (clean, len(shown) - clean - far, far, places)

# ---- sheets
def field(tag, content):
    return bytes([tag, len(content) >> 8, len(content) & 255]) + bytes(content)

def four(ws):
    return b''.join(w.to_bytes(4, 'little') for w in ws)

def sheet(n, k, rows, words, radius=None):
    return (field(1, [n]) + field(2, [k]) + field(3, four(rows))
            + (b'' if radius is None else field(4, [radius])) + field(5, four(words)))

ROWS, WORDS = [0x31, 0x2A, 0x1C], [0x23, 0x1F]
WORKED = sheet(6, 3, ROWS, WORDS)
WITHIN = sheet(6, 3, ROWS, WORDS, 1)
assert WORKED == bytes.fromhex('01000106 02000103 03000C31 0000002A 0000001C 00000005 00082300 00001F00 0000')
assert output(WORKED) == '6 3 3 1\n010101 2\n110110 1\nclean 0 mended 2 far 0 places 3\n'
assert output(WITHIN).splitlines()[1] == '110001 far'
assert output(WITHIN).splitlines()[3] == 'clean 0 mended 1 far 1 places 1'
assert output(sheet(6, 3, ROWS, [])) == '6 3 3 1\nclean 0 mended 0 far 0 places 0\n'
assert output(sheet(6, 3, ROWS, WORDS, 2)) == 'refused 5 0\n'
assert output(b'') == 'refused 13 0\n'
assert leader(PAIRS, MAX) == 0xFF and output(sheet(32, 20, PAIRS, [MAX])).startswith('32 20 2 0\n' + '0' * 8 + '1' * 24 + ' 8\n')

SHEETS = []
def case(title, s):
    SHEETS.append((title, bytes(s)))

def systematic(rng, n, k, density=0.5):
    rows = []
    for i in range(k):
        r = 1 << i
        for p in range(k, n):
            r |= (rng.random() < density) << p
        rows.append(r)
    for a in range(k):
        for b in range(k):
            if a != b and rng.random() < 0.5:
                rows[a] ^= rows[b]
    return tuple(rows)

def worked():
    case('the worked sheet', WORKED)
    case('within radius 1', WITHIN)
    case('within radius 0', sheet(6, 3, ROWS, WORDS, 0))
    case('radius 2, too large', sheet(6, 3, ROWS, WORDS, 2))
    case('radius 255', sheet(6, 3, ROWS, WORDS, 255))
    case('empty', b'')
    case('no words', sheet(6, 3, ROWS, []))
    case('no words, within 1', sheet(6, 3, ROWS, [], 1))
    case('no rows', sheet(6, 3, [], WORDS))
    case('every word of 6 places', sheet(6, 3, ROWS, range(64)))
    case('every word of 6 places, within 1', sheet(6, 3, ROWS, range(64), 1))

def cut():
    for i in range(len(WORKED)):
        case('cut after %d' % i, WORKED[:i])
    for i in range(21, len(WITHIN)):
        case('within, cut after %d' % i, WITHIN[:i])

def changed():
    for i in range(len(WITHIN)):
        for x in (1, 4, 128):
            case('byte %d changed by %d' % (i, x), WITHIN[:i] + bytes([WITHIN[i] ^ x]) + WITHIN[i + 1:])

def layout():
    f = {1: field(1, [6]), 2: field(2, [3]), 3: field(3, four(ROWS)), 4: field(4, [1]), 5: field(5, four(WORDS))}
    whole = [1, 2, 3, 4, 5]
    for tag in whole:
        case('without tag %d' % tag, b''.join(f[t] for t in whole if t != tag))
        for size in (0, 1, 2, 3, 4, 5, 8, 255):
            g = dict(f)
            g[tag] = field(tag, [0] * size)
            case('tag %d of length %d' % (tag, size), b''.join(g[t] for t in whole))
        g = dict(f)
        g[tag] = bytes([tag, g[tag][2], g[tag][1]]) + g[tag][3:]
        case('tag %d, length low byte first' % tag, b''.join(g[t] for t in whole))
        case('tag %d twice' % tag, b''.join(f[t] * (1 + (t == tag)) for t in whole))
        case('tag %d alone' % tag, f[tag])
        case('tag %d, then 1' % tag, f[tag] + f[1])
        for other in (0, 6, 7, 255):
            g = dict(f)
            g[tag] = bytes([other]) + f[tag][1:]
            case('tag %d for %d' % (other, tag), b''.join(g[t] for t in whole))
    case('falling', b''.join(f[t] for t in (5, 4, 3, 2, 1)))
    case('rows and words exchanged', f[1] + f[2] + f[5] + f[4] + f[3])
    case('one byte more', WORKED + b'\0')
    case('two bytes more', WORKED + b'\6\0')
    case('three bytes more', WORKED + b'\6\0\0')
    case('unknown tag and content past the end', WORKED + b'\6\1\0')
    case('old tag and content past the end', WORKED + b'\5\1\0')
    case('unknown tag, two bytes', b'\7\0')
    case('content past the end and wrong length', b'\1\0\2\6')
    case('content past the end of a missing tag', b'\3\0\4\0\0\0')

# a sheet with all its fields has 14 or 18 bytes and four more for each row and word: never 4,096, and at most 4,094
LONGEST = sheet(2, 1, [3], [1] * 1019)

def large():
    case('4086 bytes, cut', sheet(6, 3, ROWS, [1] * 1017)[:4086])
    case('4094 bytes', LONGEST)
    case('4096 bytes, two of them past the last field', LONGEST + b'\5\0')
    case('1020 rows', sheet(6, 3, [1] * 1020, []))
    case('4096 bytes, cut', sheet(6, 3, ROWS, [1] * 1100)[:4096])
    case('4096 bytes of 0', bytes(4096))
    case('4097 bytes of 0', bytes(4097))
    case('4097 bytes', sheet(6, 3, ROWS, [1] * 1100)[:4097])
    case('5000 bytes', bytes([1]) * 5000)
    case('33 rows', sheet(28, 16, [1] * 33, [0]))
    case('34 rows', sheet(28, 16, [1] * 34, [0]))
    case('33 rows, k 33', sheet(34, 33, [1] * 33, [0]))
    rng = random.Random(1)
    rows = systematic(rng, 28, 16)
    d = dmin(rows)
    words = [rng.randrange(1 << 28) for _ in range(512)]
    case('28 places, 512 words', sheet(28, 16, rows, words))
    case('28 places, 512 words, within %d' % ((d - 1) // 2), sheet(28, 16, rows, words, (d - 1) // 2))
    case('513 words', sheet(28, 16, rows, words + [0]))
    case('513 words, the last outside', sheet(28, 16, rows, words + [1 << 31]))
    case('514 words', sheet(28, 16, rows, words + [0, 0]))
    case('600 words', sheet(6, 3, ROWS, [1] * 600))
    case('512 words, the last outside', sheet(28, 16, rows, words[:511] + [1 << 28]))
    case('20 rows and one more', sheet(32, 20, LARGEST + (1,), [0]))
    case('21 rows, k 21', sheet(33, 21, LARGEST + (1,), [0]))
    words = [rng.randrange(1 << 32) for _ in range(510)] + [MAX, MAX ^ 7]
    case('32 places, 512 words', sheet(32, 20, LARGEST, words))
    case('32 places, 512 words, within 2', sheet(32, 20, LARGEST, words, 2))
    case('32 places, pairs', sheet(32, 20, PAIRS, [MAX]))
    golay = [0xAE3, 0x5C7]
    case('23 places, 12 rows', sheet(23, 12, [golay[0] << i for i in range(12)], [rng.randrange(1 << 23) for _ in range(100)], 3))

def ranges():
    rng = random.Random(3)
    for n, k in ((0, 0), (1, 1), (2, 0), (2, 1), (2, 2), (2, 3), (13, 1), (14, 1), (28, 16), (29, 16), (29, 17), (16, 16), (28, 17),
                 (27, 15), (28, 15), (255, 255), (255, 1), (1, 255), (32, 20), (31, 19), (32, 19), (32, 21), (33, 20), (33, 21), (20, 20),
                 (21, 21)):
        case('n %d, k %d' % (n, k), sheet(n, k, systematic(rng, min(n, 32), min(k, 21), 0.5 if n > 20 else 0.1), [1]))

def causes():
    """Each cause, and each two of them in one sheet."""
    def made(faults):
        n, k, rows, words, radius = 6, 3, list(ROWS), list(WORDS), None
        if 5 in faults:
            radius = 2
        if 4 in faults:
            rows[2] = rows[0] ^ rows[1]
        if 3 in faults:
            rows[1] |= 64
        if 2 in faults:
            rows.append(1)
        if 1 in faults:
            k = 17
        if 7 in faults:
            words[1] |= 64
        if 6 in faults:
            words += [0] * 511
        s = sheet(n, k, rows, words, radius)
        if 13 in faults:
            s += field(5, [])
        if 12 in faults:
            s = s[:-1]
        if 14 in faults:
            s = field(1, [n, n]) + s[4:]
        return s
    names = {14: 'length of tag 1'}
    every = (1, 2, 3, 4, 5, 6, 7, 12, 13, 14)
    for a in every:
        case('cause %s' % names.get(a, a), made({a}))
    for a, b in combinations(every, 2):
        case('causes %s and %s' % (names.get(a, a), names.get(b, b)), made({a, b}))

def mixed():
    rng = random.Random(2)
    for i in range(40):
        k = rng.randrange(1, 11)
        n = k + rng.randrange(1, 11)
        rows = systematic(rng, n, k, rng.random())
        radius = rng.choice([None, (dmin(rows) - 1) // 2, 0])
        case('(%d,%d) code' % (n, k), sheet(n, k, rows, [rng.randrange(1 << n) for _ in range(rng.randrange(8))], radius))
    for i in range(40):
        case('bytes', bytes(rng.choice([0, 0, 0, 1, 1, 2, 3, 4, 5, 6]) for _ in range(rng.randrange(1, 24))))

def tallies():
    """Closing lines of 512 words that end alike, and with the most places that a batch can have mended."""
    case('512 clean words', sheet(6, 3, ROWS, [0x31, 0x2A, 0x1C, 0] * 128))
    case('512 far words', sheet(6, 3, ROWS, [0x23] * 512, 1))
    case('511 far words, then a clean one', sheet(6, 3, ROWS, [0x23] * 511 + [0x1C], 1))
    case('512 words, 12 places mended in each', sheet(13, 1, [1], [0x1FFE, 0x1FFF] * 256))

for group in (worked, cut, changed, layout, ranges, causes, mixed, large, tallies):
    group()

def main():
    for title, s in SHEETS:
        t = title.encode()
        if sys.argv[1:] == ['stdin']:
            sys.stdout.buffer.write(bytes([len(t)]) + t + len(s).to_bytes(2, 'big') + s)
        else:
            sys.stdout.write(title + '\n' + output(s))

if __name__ == '__main__':
    main()
