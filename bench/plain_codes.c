/* Any generator matrix. */
#include "leaders.h"
#include "plain.h"
#include <string.h>

Ways ways;

typedef struct {
    uint32_t rows[32];     /* the reduced row whose pivot is this place, or 0 */
    uint32_t messages[32]; /* the message that has it as its codeword */
} Pivots;

static uint32_t refuse(size_t *value, uint32_t number, size_t v)
{
    *value = v;
    return number;
}

/* Whether w has a one outside so many places, up to 32. */
static inline bool outside(uint32_t w, uint32_t places)
{
    return (uint64_t)w >> places;
}

/* Causes 1 to 4, and the reduced rows by pivot. */
static uint32_t reduce(uint32_t n, uint32_t k, const uint32_t *rows, size_t rows_len, Pivots *p, size_t *value)
{
    if (n < 2 || n > MAX_PLACES || k < 1 || k > MAX_ROWS || n < k + 1 || n > k + MAX_CHECKS)
        return refuse(value, 1, 0);
    if (rows_len != k)
        return refuse(value, 2, 0);
    for (uint32_t i = 0; i < k; i++)
        if (outside(rows[i], n))
            return refuse(value, 3, i);
    memset(p, 0, sizeof *p);
    for (uint32_t i = 0; i < k; i++) {
        uint32_t x = rows[i], u = 1u << i;
        for (uint32_t q = 0; q < n; q++)
            if (x >> q & 1 && p->rows[q]) {
                x ^= p->rows[q];
                u ^= p->messages[q];
            }
        if (!x)
            return refuse(value, 4, i);
        int pivot = __builtin_ctz(x);
        for (uint32_t q = 0; q < n; q++)
            if (p->rows[q] >> pivot & 1) {
                p->rows[q] ^= x;
                p->messages[q] ^= u;
            }
        p->rows[pivot] = x;
        p->messages[pivot] = u;
    }
    return refuse(value, 0, 0);
}

uint32_t plain_accept(uint32_t n, uint32_t k, const uint32_t *rows, size_t rows_len, size_t *value)
{
    Pivots p;
    return reduce(n, k, rows, rows_len, &p, value);
}

static unsigned check_rows(uint32_t n, const Pivots *p, uint32_t *checks)
{
    unsigned j = 0;
    for (uint32_t f = 0; f < n; f++)
        if (!p->rows[f]) {
            uint32_t h = 1u << f;
            for (uint32_t q = 0; q < n; q++)
                h |= (p->rows[q] >> f & 1) << q;
            checks[j++] = h;
        }
    return j;
}

static void reduced_rows(uint32_t n, const Pivots *p, uint32_t reduced[MAX_ROWS])
{
    unsigned i = 0;
    for (uint32_t q = 0; q < n; q++)
        if (p->rows[q])
            reduced[i++] = p->rows[q];
}

uint32_t plain_describe(uint32_t n, uint32_t k, const uint32_t *rows, size_t rows_len, uint32_t reduced[MAX_ROWS],
                        uint32_t checks[MAX_CHECKS], uint32_t counts[33], uint32_t *dmin, uint32_t *lightest, size_t *value)
{
    Pivots p;
    memset(reduced, 0, MAX_ROWS * sizeof *reduced);
    memset(checks, 0, MAX_CHECKS * sizeof *checks);
    memset(counts, 0, 33 * sizeof *counts);
    *dmin = *lightest = 0;
    uint32_t number = reduce(n, k, rows, rows_len, &p, value);
    if (number)
        return number;
    reduced_rows(n, &p, reduced);
    check_rows(n, &p, checks);
    if (ways.dual)
        by_dual(n, k, reduced, checks, counts, dmin, lightest);
    else if (ways.blocks)
        block_walk(k, rows, counts, dmin, lightest);
    else
        gray_walk(k, rows, counts, dmin, lightest);
    return 0;
}

/* Causes 6 to 8. */
static uint32_t lists(const uint32_t *words, size_t m, uint32_t places, size_t slots, size_t *value)
{
    if (m > 512)
        return refuse(value, 6, 0);
    for (size_t i = 0; i < m; i++)
        if (outside(words[i], places))
            return refuse(value, 7, i);
    if (slots < m)
        return refuse(value, 8, 0);
    return 0;
}

static uint32_t row_sum(const uint32_t *rows, unsigned count, uint32_t u)
{
    uint32_t sum = 0;
    for (unsigned i = 0; i < count; i++)
        sum ^= rows[i] & -(u >> i & 1);
    return sum;
}

uint32_t plain_encode(uint32_t n, uint32_t k, const uint32_t *rows, size_t rows_len, const uint32_t *messages, size_t m,
                      uint32_t *out, size_t out_len, size_t *value)
{
    Pivots p;
    uint32_t number = reduce(n, k, rows, rows_len, &p, value);
    if (number || (number = lists(messages, m, k, out_len, value)))
        return number;
    for (size_t i = 0; i < m; i++)
        out[i] = row_sum(rows, k, messages[i]);
    return 0;
}

static uint32_t syndrome(const uint32_t *checks, unsigned count, uint32_t w)
{
    uint32_t s = 0;
    for (unsigned j = 0; j < count; j++)
        s |= (ones(w & checks[j]) & 1) << j;
    return s;
}

uint32_t plain_message(uint32_t n, uint32_t k, const uint32_t *rows, size_t rows_len, const uint32_t *words, size_t m,
                       uint32_t *out, size_t out_len, size_t *value)
{
    Pivots p;
    uint32_t checks[MAX_CHECKS];
    uint32_t number = reduce(n, k, rows, rows_len, &p, value);
    if (number || (number = lists(words, m, n, out_len, value)))
        return number;
    unsigned r = check_rows(n, &p, checks);
    for (size_t i = 0; i < m; i++)
        if (syndrome(checks, r, words[i]))
            return refuse(value, 10, i);
    for (size_t i = 0; i < m; i++)
        out[i] = row_sum(p.messages, n, words[i]);
    return 0;
}

typedef struct {
    uint32_t *list, columns[MAX_PLACES], left, tried;
} Build;

/* The words of m places and weight t, by rising number, until no entry is blank. */
static void fill(Build *b, int m, int t, uint32_t w, uint32_t s)
{
    if (!b->left || m < t)
        return;
    if (t == 0) {
        b->tried++;
        if (b->list[s] == UINT32_MAX) {
            b->list[s] = w;
            b->left--;
        }
        return;
    }
    fill(b, m - 1, t, w, s);
    fill(b, m - 1, t - 1, w | 1u << (m - 1), s ^ b->columns[m - 1]);
}

/* The words with one place more, below m. */
static inline void fill_units(Build *b, int m, uint32_t w, uint32_t s)
{
    for (int p = 0; p < m; p++) {
        uint32_t x = s ^ b->columns[p];
        if (b->list[x] == UINT32_MAX) {
            b->list[x] = w | 1u << p;
            if (!--b->left) {
                b->tried += (uint32_t)p + 1;
                return;
            }
        }
    }
    b->tried += (uint32_t)m;
}

/* The same as fill, with the last two ones in loops. */
static void fill_loops(Build *b, int m, int t, uint32_t w, uint32_t s)
{
    if (!b->left || m < t)
        return;
    if (t == 1) {
        fill_units(b, m, w, s);
        return;
    }
    if (t == 2) {
        for (int p = 1; p < m && b->left; p++)
            fill_units(b, p, w | 1u << p, s ^ b->columns[p]);
        return;
    }
    fill_loops(b, m - 1, t, w, s);
    fill_loops(b, m - 1, t - 1, w | 1u << (m - 1), s ^ b->columns[m - 1]);
}

/* Entry p is the syndrome of the word with a one at place p alone. */
static void column_list(uint32_t n, const uint32_t *checks, unsigned r, uint32_t columns[MAX_PLACES])
{
    memset(columns, 0, MAX_PLACES * sizeof *columns);
    for (uint32_t p = 0; p < n; p++)
        for (unsigned j = 0; j < r; j++)
            columns[p] |= (checks[j] >> p & 1) << j;
}

static void leaders(uint32_t n, const uint32_t *checks, unsigned r, Build *b)
{
    column_list(n, checks, r, b->columns);
    b->tried = 0;
    if (ways.syndromes) {
        leaders_by_syndromes(n, r, b->columns, b->list);
        return;
    }
    memset(b->list, 0xFF, sizeof *b->list << r);
    b->list[0] = 0;
    b->left = (1u << r) - 1;
    b->tried = 1;
    for (unsigned t = 1; t <= r && b->left; t++)
        if (ways.loops)
            fill_loops(b, (int)n, (int)t, 0, 0);
        else
            fill(b, (int)n, (int)t, 0, 0);
}

uint32_t plain_leaders(uint32_t n, uint32_t k, const uint32_t *rows, size_t rows_len, uint32_t *list, size_t list_len,
                       uint32_t checks[MAX_CHECKS], uint32_t *tried, size_t *value)
{
    Pivots p;
    Build b = {.list = list};
    uint32_t number = reduce(n, k, rows, rows_len, &p, value);
    *tried = 0;
    memset(checks, 0, MAX_CHECKS * sizeof *checks);
    if (number)
        return number;
    if (list_len < (size_t)1 << (n - k))
        return refuse(value, 9, 0);
    leaders(n, checks, check_rows(n, &p, checks), &b);
    *tried = b.tried;
    return 0;
}

/* The syndromes of eight places at a time. */
typedef struct {
    uint32_t of[4][256];
} Tables;

static void fill_tables(const uint32_t columns[MAX_PLACES], Tables *tables)
{
    for (int t = 0; t < 4; t++) {
        tables->of[t][0] = 0;
        for (uint32_t v = 1; v < 256; v++)
            tables->of[t][v] = tables->of[t][v & (v - 1)] ^ columns[8 * t + __builtin_ctz(v)];
    }
}

static inline uint32_t table_syndrome(const Tables *t, uint32_t w)
{
    return t->of[0][w & 255] ^ t->of[1][w >> 8 & 255] ^ t->of[2][w >> 16 & 255] ^ t->of[3][w >> 24];
}

typedef struct {
    bool within;
    uint32_t radius;
    uint32_t *out;
    uint8_t *counts;
} Answers;

/* Word i with the error pattern e. */
static inline void answer(const Answers *a, size_t i, uint32_t w, uint32_t e)
{
    unsigned x = ones(e);
    bool far = a->within && x > a->radius;
    a->out[i] = far ? w : w ^ e;
    a->counts[i] = far ? 255 : (uint8_t)x;
}

static void decode_words(const uint32_t *checks, unsigned r, const uint32_t *leader, const uint32_t *words, size_t m, const Answers *a)
{
    for (size_t i = 0; i < m; i++)
        answer(a, i, words[i], leader[syndrome(checks, r, words[i])]);
}

/* Syndromes, then leaders, then codewords in one list, each in passes over all words. */
static void decode_batch(const uint32_t *checks, unsigned r, const uint32_t *leader, const uint32_t *words, size_t m, const Answers *a)
{
    uint32_t *list = a->out;
    memset(list, 0, m * sizeof *list);
    while (r-- > 0)
        for (size_t i = 0; i < m; i++)
            list[i] = list[i] << 1 ^ (ones(words[i] & checks[r]) & 1);
    for (size_t i = 0; i < m; i++)
        list[i] = leader[list[i]];
    for (size_t i = 0; i < m; i++)
        answer(a, i, words[i], list[i]);
}

static void decode_by_tables(const uint32_t columns[MAX_PLACES], const uint32_t *leader, const uint32_t *words, size_t m, const Answers *a)
{
    Tables tables;
    fill_tables(columns, &tables);
    for (size_t i = 0; i < m; i++)
        answer(a, i, words[i], leader[table_syndrome(&tables, words[i])]);
}

/* The minimum distance. */
static uint32_t distance(uint32_t n, uint32_t k, const uint32_t *rows, const Pivots *p)
{
    uint32_t reduced[MAX_ROWS];
    if (!ways.rows)
        return ways.blocks ? block_distance(k, rows) : gray_distance(k, rows);
    reduced_rows(n, p, reduced);
    return rising_distance(k, reduced);
}

uint32_t plain_decode(uint32_t n, uint32_t k, const uint32_t *rows, size_t rows_len, bool within, uint32_t radius,
                      const uint32_t *words, size_t m, uint32_t *out, size_t out_len, uint8_t *counts, size_t counts_len,
                      uint32_t *work, size_t work_len, size_t *value, bool measured, uint32_t *d)
{
    Pivots p;
    uint32_t checks[MAX_CHECKS];
    Build b = {.list = work};
    Answers a = {within, radius, out, counts};
    uint32_t number = reduce(n, k, rows, rows_len, &p, value);
    if (number)
        return number;
    if (within || measured)
        *d = distance(n, k, rows, &p);
    if (within && (*d - 1) / 2 < radius)
        return refuse(value, 5, 0);
    if ((number = lists(words, m, n, out_len < counts_len ? out_len : counts_len, value)))
        return number;
    if (work_len < (size_t)1 << (n - k))
        return refuse(value, 9, 0);
    unsigned r = check_rows(n, &p, checks);
    leaders(n, checks, r, &b);
    if (ways.tables)
        decode_by_tables(b.columns, work, words, m, &a);
    else if (ways.batch)
        decode_batch(checks, r, work, words, m, &a);
    else
        decode_words(checks, r, work, words, m, &a);
    return 0;
}
