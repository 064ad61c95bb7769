"""The fixed codes: single calls, every message, every error pattern and every change."""
from itertools import combinations
from math import comb

from codes import codewords, word
from fixed_codes import GOLAY_MESSAGES, GOLAY_ROWS, HSIAO, WIDTHS, golay_decode, patterns
from named_codes import MAX
from records import digest, items, record, said, title


# ---- the extended Golay code
def golay_encode_call(u):
    fits = u < 2**12
    record('Golay encode', u, 0, 0, (), (), said(None if fits else (7, 0)) + items([codewords(GOLAY_ROWS)[u] if fits else 0]))


def golay_decode_call(w):
    fits = w < 2**24
    record('Golay decode', w, 0, 0, (), (), said(None if fits else (7, 0)) + items(golay_decode(w) if fits else (0, 0)))


def golay_message_call(w):
    cause = (7, 0) if w >= 2**24 else None if w in GOLAY_MESSAGES else (10, 0)
    record('Golay message', w, 0, 0, (), (), said(cause) + items([GOLAY_MESSAGES.get(w, 0)]))


def golay():
    title('the extended Golay code')
    codeword, near = (word(r) for r in ('100100110110' + '110000000000', '100000110100' + '110000000001'))
    assert codewords(GOLAY_ROWS)[word('110000000000')] == codeword and golay_decode(near) == (codeword, 3)
    for u in (3, 4095, 4096, MAX):
        golay_encode_call(u)
    for w in (near, codeword, word('1111'), 2**24 - 1, 2**24, MAX):
        golay_decode_call(w)
    for w in (codeword, 2**24, MAX, 1, 2**24 - 2, 2**24 - 1):
        golay_message_call(w)


def golay_patterns():
    """Every message; and every error pattern, where by linearity the zero codeword decides: up to three places come back, four are far."""
    title('every Golay message and error pattern')
    record('Golay messages', 0, 0, 0, (), (), items([4096, digest(codewords(GOLAY_ROWS))]))
    assert all(golay_decode(e) == (0, t) for t in range(4) for e in patterns(24, t))
    assert all(golay_decode(e) == (e, 255) for e in patterns(24, 4))
    for u in (0, 1, 3, 0xA5C, 4095):
        for t in range(5):
            record('Golay patterns', u, t, 0, (), (), items([comb(24, t)]))


# ---- the (72,64) code
ALL = 2**64 - 1
DATA = 0x0123456789ABCDEF


def hsiao_record(name, data, x, printed):
    record(name, data >> 32, data % 2**32, x, (), (), printed)


def hsiao_encode_call(data):
    hsiao_record('(72,64) encode', data, 0, items([HSIAO.encode(data)]))


def hsiao_decode_call(check, data):
    """The syndrome, the answer's check byte and data, the count, and the data read back from the word as received."""
    w = HSIAO.word(check, data)
    s = HSIAO.syndrome(w)
    answer, count = HSIAO.decode(w)
    hsiao_record('(72,64) decode', data, check, items([s, *HSIAO.parts(answer), count]) + (f' done {data}' if s == 0 else ' refused 10 0 0'))


def hsiao():
    title('the (72,64) code')
    assert HSIAO.encode(1) == 7 and HSIAO.encode(ALL) == 0
    assert HSIAO.decode(HSIAO.word(0, 3))[1] == HSIAO.decode(HSIAO.word(0x2F, 0))[1] == 255 and HSIAO.decode(HSIAO.word(0, 1)) == (0, 1)
    for data in (1, ALL, 0, 3, 2**63):
        hsiao_encode_call(data)
    for check, data in ((0, 3), (0x2F, 0), (0, 1), (0, 0), (7, 1), (255, 0), (1, 0), (128, 0), (0x8F, 0), (0xE0, 0), (0, ALL), (4, ALL),
                        (0, ALL >> 1), (255, ALL)):
        hsiao_decode_call(check, data)


def changed(w, places):
    return w ^ sum(1 << p for p in places)


def count_totals(code, data):
    """How many checks beside the data end with each count."""
    counts = [code.decode(code.word(c, data))[1] for c in range(2**code.checks)]
    return {count: counts.count(count) for count in (0, 1, 255)}


def change_totals(code, data):
    """Of a codeword changed in no, one, two places, and three with place 0: how many are clean, come back, are far and far."""
    w = code.word(code.encode(data), data)
    places = range(len(code.columns))
    assert code.decode(w) == (w, 0)
    assert all(code.decode(changed(w, [p])) == (w, 1) for p in places)
    pairs = [changed(w, ps) for ps in combinations(places, 2)]
    assert all(code.decode(v) == (v, 255) for v in pairs)
    triples = [changed(w, (0, *ps)) for ps in combinations(places[1:], 2)]
    return [1, len(places), len(pairs), sum(code.decode(v) == (v, 255) for v in triples)]


def hsiao_changes():
    """Every check byte beside the same data; and codewords changed in one, two or three places, of three with place 0."""
    title('every (72,64) check byte and change')
    for data in (0, DATA, ALL):
        for count, total in count_totals(HSIAO, data).items():
            hsiao_record('(72,64) counts', data, count, items([total]))
    for data in (0, 1, ALL, DATA, 2**63 + 1):
        hsiao_record('(72,64) changes', data, 0, items(change_totals(HSIAO, data)))


# ---- the codes of 16, 32 and 64 data bits
def width_cause(width, data, check=0):
    """14, then 15; None where the width's code has such a word."""
    if width not in WIDTHS:
        return 14, 0
    return (15, 0) if data >= 2**width or check >= 2**WIDTHS[width].checks else None


def width_record(name, width, data, beside, printed):
    record(name, data >> 32, data % 2**32, width, (beside,), (), items([beside]) + printed)


def width_encode_call(width, data):
    cause = width_cause(width, data)
    width_record('width encode', width, data, 0, said(cause) + items([0 if cause else WIDTHS[width].encode(data)]))


def width_decode_call(width, check, data):
    """The answer's check bits and data and the count, and the data read back from the word as received."""
    cause = width_cause(width, data, check)
    decoded, read = (0, 0, 0), None
    if not cause:
        code = WIDTHS[width]
        w = code.word(check, data)
        answer, count = code.decode(w)
        decoded, read = (*code.parts(answer), count), None if code.syndrome(w) == 0 else (10, 0)
    read = cause or read
    width_record('width decode', width, data, check, said(cause) + items(decoded) + said(read) + items([0 if read else data]))


def widths():
    title('the codes of 16, 32 and 64 data bits')
    encoded = {16: {1: 0x07, 0xFFFF: 0x0F, 0x8000: 0x2C, 0xBEEF: 0x2C}, 32: {0xFFFFFFFF: 0x03, 0x80000000: 0x62, 0xDEADBEEF: 0x05}}
    for width, checks in encoded.items():
        assert all(WIDTHS[width].encode(data) == check for data, check in checks.items())
        for data in (*checks, 0, 3, 2**width - 1, 2**width, 2**63, ALL):
            width_encode_call(width, data)
    for data in (0, 1, DATA, ALL):
        width_encode_call(64, data)
    for width in (0, 8, 15, 17, 24, 31, 33, 48, 63, 65, 80, 128, 272, MAX):
        for data in (0, ALL):
            width_encode_call(width, data)
            width_decode_call(width, 255, data)


def width_words():
    title('words of 16, 32 and 64 data bits')
    for width, code in WIDTHS.items():
        top, most = 2**width - 1, 2**code.checks - 1
        for check in (0, 1, 6, 7, 0x1F, 0x2C, 0x31, 0x32, 0x34, 0x38, 0x3E, 0x3F, 0x40, 0x47, 0x62, 0x64, 0x68, 0x70, 0x7F, 0x80, 0x8F, 0xFF):
            for data in (0, 1, top):
                width_decode_call(width, check, data)
        for data in (top, 0xBEEF, 0x8000, top ^ 1, top >> 1):
            check = code.encode(data)
            for c, d in ((check, data), (check ^ 1, data), (check ^ (most + 1) // 2, data), (check, data ^ 1), (check, data ^ 2**(width - 1)),
                         (check, data ^ 3), (check ^ 3, data), (check ^ 1, data ^ 1), (check, data + 2**width), (check + most + 1, data)):
                if c < 256 and d < 2**64:
                    width_decode_call(width, c, d)


def width_changes():
    """Every check beside the same data; and codewords changed in one, two or three places, of three with place 0."""
    title('every check and change by width')
    assert count_totals(WIDTHS[16], 0) == {0: 1, 1: 22, 255: 41} and count_totals(WIDTHS[32], 0) == {0: 1, 1: 39, 255: 88}
    for width, code in WIDTHS.items():
        for data in (0, DATA % 2**width, 2**width - 1):
            for count, total in count_totals(code, data).items():
                width_record('width counts', width, data, count, items([total]))
        for data in (0, 1, DATA % 2**width, 2**(width - 1) + 1, 2**width - 1)[:5 if width < 64 else 2]:
            width_record('width changes', width, data, 0, items(change_totals(code, data)))
