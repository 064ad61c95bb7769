/* The program decode_sheet as one would write it in C for speed: codewords walked in blocks of 256, leaders built from those of one place
 * less, syndromes by tables of 256, digits printed eight at a time. Standard input to standard output; a failing read or write is not told. */
#include "../leaders.h"
#include <stdbool.h>
#include <stddef.h>
#include <stdint.h>
#include <string.h>
#include <unistd.h>

enum { MAX_PLACES = 32, MAX_ROWS = 20, MAX_CHECKS = 12, MAX_WORDS = 512, MAX_SHEET = 4096, MAX_OUTPUT = 20480, BLOCK_ROWS = 8 };

typedef struct {
    unsigned have, n, k, radius, row_count, word_count;
    const uint8_t *rows, *words;
} Sheet;

typedef struct {
    uint32_t number;
    size_t value;
} Answer;

static const Answer done = {0, 0};

static inline uint32_t word(const uint8_t *b)
{
    return (uint32_t)b[0] | (uint32_t)b[1] << 8 | (uint32_t)b[2] << 16 | (uint32_t)b[3] << 24;
}

static unsigned ones(uint32_t x)
{
    return (unsigned)__builtin_popcount(x);
}

static void take(Sheet *s, unsigned tag, const uint8_t *content, unsigned size)
{
    s->have |= 1u << tag;
    switch (tag) {
    case 1: s->n = *content; break;
    case 2: s->k = *content; break;
    case 3: s->rows = content; s->row_count = size / 4; break;
    case 4: s->radius = *content; break;
    default: s->words = content; s->word_count = size / 4;
    }
}

/* Causes 12 and 13. */
static Answer read_sheet(const uint8_t *sheet, size_t length, Sheet *s)
{
    unsigned last = 0;
    if (length > MAX_SHEET)
        return (Answer){12, MAX_SHEET};
    for (size_t at = 0; at < length;) {
        if (length - at < 3)
            return (Answer){12, at};
        unsigned tag = sheet[at], size = sheet[at + 1] * 256u + sheet[at + 2];
        if (tag > 5 || tag <= last)
            return (Answer){13, at};
        if (size > length - at - 3 || (tag == 3 || tag == 5 ? size % 4 != 0 : size != 1))
            return (Answer){12, at};
        take(s, tag, sheet + at + 3, size);
        last = tag;
        at += 3 + size;
    }
    return (s->have & 0x2E) == 0x2E ? done : (Answer){13, length};
}

/* Causes 1 to 4, and the reduced rows by pivot. */
static Answer reduce(const Sheet *s, uint32_t rows[MAX_ROWS], uint32_t reduced[MAX_PLACES])
{
    unsigned n = s->n, k = s->k;
    if (n < 2 || n > MAX_PLACES || k < 1 || k > MAX_ROWS || n < k + 1 || n > k + MAX_CHECKS)
        return (Answer){1, 0};
    if (s->row_count != k)
        return (Answer){2, 0};
    for (unsigned i = 0; i < k; i++) {
        rows[i] = word(s->rows + 4 * i);
        if ((uint64_t)rows[i] >> n)
            return (Answer){3, i};
    }
    unsigned pivots[MAX_ROWS];
    for (unsigned i = 0; i < k; i++) {
        uint32_t x = rows[i];
        for (unsigned j = 0; j < i; j++)
            x ^= reduced[pivots[j]] & -(x >> pivots[j] & 1);
        if (!x)
            return (Answer){4, i};
        unsigned p = (unsigned)__builtin_ctz(x);
        for (unsigned j = 0; j < i; j++)
            reduced[pivots[j]] ^= x & -(reduced[pivots[j]] >> p & 1);
        reduced[p] = x;
        pivots[i] = p;
    }
    return done;
}

static int block_least(const uint32_t *block, uint32_t size, uint32_t base, int d)
{
    for (uint32_t j = 0; j < size; j++) {
        int x = (int)ones(block[j] ^ base);
        d = x < d ? x : d;
    }
    return d;
}

/* The least weight of a codeword that is not 0. */
static uint32_t distance(unsigned k, const uint32_t *rows)
{
    uint32_t block[1 << BLOCK_ROWS], base = 0;
    unsigned b = k < BLOCK_ROWS ? k : BLOCK_ROWS;
    block[0] = 0;
    for (unsigned i = 0; i < b; i++)
        for (uint32_t v = 0; v < 1u << i; v++)
            block[(1u << i) + v] = block[v] ^ rows[i];
    int d = block_least(block + 1, (1u << b) - 1, 0, 33);
    for (uint32_t h = 1; h < 1u << (k - b); h++) {
        base ^= rows[b + (unsigned)__builtin_ctz(h)];
        d = block_least(block, 1u << b, base, d);
    }
    return (uint32_t)d;
}

/* Entry p is the syndrome of the word with a one at place p alone. */
static void columns(unsigned n, const uint32_t reduced[MAX_PLACES], uint32_t column[MAX_PLACES])
{
    unsigned places[MAX_CHECKS], c = 0;
    for (unsigned q = 0; q < n; q++)
        if (!reduced[q]) {
            column[q] = 1u << c;
            places[c++] = q;
        }
    for (unsigned q = 0; q < n; q++)
        if (reduced[q]) {
            column[q] = 0;
            for (unsigned j = 0; j < c; j++)
                column[q] |= (reduced[q] >> places[j] & 1) << j;
        }
}

static void tables(unsigned n, const uint32_t *column, uint32_t table[4][256])
{
    for (unsigned t = 0; 8 * t < n; t++) {
        table[t][0] = 0;
        for (unsigned i = 0; i < 8; i++)
            for (uint32_t v = 0; v < 1u << i; v++)
                table[t][(1u << i) + v] = table[t][v] ^ (8 * t + i < n ? column[8 * t + i] : 0);
    }
}

static inline uint32_t syndrome(unsigned n, uint32_t table[4][256], uint32_t w)
{
    uint32_t s = table[0][w & 255];
    if (n > 8)
        s ^= table[1][w >> 8 & 255];
    if (n > 16)
        s ^= table[2][w >> 16 & 255];
    if (n > 24)
        s ^= table[3][w >> 24];
    return s;
}

static uint8_t *number(uint8_t *out, size_t x, char end)
{
    uint8_t digits[20];
    unsigned n = 0;
    do
        digits[n++] = (uint8_t)('0' + x % 10);
    while (x /= 10);
    while (n)
        *out++ = digits[--n];
    *out++ = (uint8_t)end;
    return out;
}

static uint8_t *text(uint8_t *out, const char *t)
{
    size_t length = strlen(t);
    memcpy(out, t, length);
    return out + length;
}

/* Eight digits; the caller writes over those that are too many. */
static inline void digits(uint8_t *out, uint32_t byte)
{
    uint64_t d = byte;
    d = (d | d << 28) & 0x0000000F0000000F;
    d = (d | d << 14) & 0x0003000300030003;
    d = (d | d << 7) & 0x0101010101010101;
    d |= 0x3030303030303030;
    memcpy(out, &d, 8);
}

static inline uint8_t *line(uint8_t *out, unsigned n, uint32_t w, unsigned count)
{
    for (unsigned p = 0; p < n; p += 8)
        digits(out + p, w >> p & 255);
    out += n;
    *out++ = ' ';
    if (count == 255) {
        memcpy(out, "far\n", 4);
        return out + 4;
    }
    if (count > 9)
        *out++ = (uint8_t)('0' + count / 10);
    *out++ = (uint8_t)('0' + count % 10);
    *out++ = '\n';
    return out;
}

static uint8_t *refused(uint8_t *out, Answer a)
{
    return number(number(text(out, "refused "), a.number, ' '), a.value, '\n');
}

/* Causes 1 to 9, and the lines of an accepted sheet. */
static uint8_t *run(const Sheet *s, uint8_t *out)
{
    uint32_t rows[MAX_ROWS], reduced[MAX_PLACES] = {0}, column[MAX_PLACES] = {0}, leader[1 << MAX_CHECKS], table[4][256], words[MAX_WORDS];
    unsigned n = s->n, k = s->k, m = s->word_count, clean = 0, far = 0, places = 0;
    bool within = s->have >> 4 & 1;
    Answer a = reduce(s, rows, reduced);
    if (a.number)
        return refused(out, a);
    uint32_t d = distance(k, rows);
    if (within && (d - 1) / 2 < s->radius)
        return refused(out, (Answer){5, 0});
    if (m > MAX_WORDS)
        return refused(out, (Answer){6, 0});
    uint32_t all = 0;
    for (unsigned i = 0; i < m; i++)
        all |= words[i] = word(s->words + 4 * i);
    if ((uint64_t)all >> n)
        for (unsigned i = 0; i < m; i++)
            if ((uint64_t)words[i] >> n)
                return refused(out, (Answer){7, i});
    columns(n, reduced, column);
    leaders_by_syndromes(n, n - k, column, leader);
    tables(n, column, table);
    out = number(number(number(number(out, n, ' '), k, ' '), d, ' '), (d - 1) / 2, '\n');
    unsigned limit = within ? s->radius : MAX_PLACES;
    for (unsigned i = 0; i < m; i++) {
        uint32_t e = leader[syndrome(n, table, words[i])];
        unsigned x = ones(e);
        if (x > limit) {
            far++;
            out = line(out, n, words[i], 255);
        } else {
            clean += x == 0;
            places += x;
            out = line(out, n, words[i] ^ e, x);
        }
    }
    out = number(text(out, "clean "), clean, ' ');
    out = number(text(out, "mended "), m - clean - far, ' ');
    out = number(text(out, "far "), far, ' ');
    return number(text(out, "places "), places, '\n');
}

int main(void)
{
    static uint8_t sheet[MAX_SHEET + 1], out[MAX_OUTPUT];
    Sheet s = {0};
    size_t length = 0;
    for (ssize_t got; (got = read(0, sheet + length, sizeof sheet - length)) > 0;)
        length += (size_t)got;
    Answer a = read_sheet(sheet, length, &s);
    uint8_t *end = a.number ? refused(out, a) : run(&s, out);
    for (uint8_t *p = out; p < end;) {
        ssize_t put = write(1, p, (size_t)(end - p));
        if (put < 0)
            return 1;
        p += put;
    }
    return 0;
}
