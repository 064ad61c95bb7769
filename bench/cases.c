#include "cases.h"
#include "../bindings/relaymarten.h"
#include <string.h>

enum { WORDS = RELAY_MAX_WORDS, DEPTH = RELAY_MAX_DEPTH, FIXED = 1000 };

static uint64_t state = 0x9E3779B97F4A7C15;

static uint64_t next(void)
{
    state ^= state << 13;
    state ^= state >> 7;
    state ^= state << 17;
    return state;
}

/* What a case reads, and what each side writes. */
static struct {
    uint32_t n, k, rows[RELAY_MAX_ROWS], words[WORDS], fixed[FIXED], width, wide;
    uint32_t tried; /* how many words are to be tried, where that is known */
    uint32_t radius;
    size_t count, prepared, fewer; /* fewer: the words of the run that is subtracted */
    uint8_t check[FIXED], bits[DEPTH * RELAY_MAX_PLACES], sheet[RELAY_MAX_SHEET];
    uint64_t data[FIXED];
    size_t sheet_len;
} in;

typedef struct {
    uint32_t number, reduced[RELAY_MAX_ROWS], checks[RELAY_MAX_CHECKS], weights[RELAY_WEIGHTS], dmin, lightest, tried, words[WORDS];
    uint32_t work[RELAY_MAX_LEADERS], fixed[FIXED];
    uint8_t counts[FIXED], check[FIXED], bits[DEPTH * RELAY_MAX_PLACES], out[RELAY_MAX_OUTPUT];
    uint64_t data[FIXED];
    size_t value, length;
} Written;

static Written ours, theirs;

void set_words(bool all)
{
    in.count = all ? in.prepared : in.fewer;
}

bool same(void)
{
    bool done = ours.number == 0 && memcmp(ours.out, "refused", 7) != 0;
    return done && (in.tried == 0 || ours.tried == in.tried) && memcmp(&ours, &theirs, sizeof ours) == 0;
}

/* The number with ones at so many places, up to 32, alone. */
static uint32_t ones_below(uint32_t places)
{
    return (uint32_t)((UINT64_C(1) << places) - 1);
}

/* Random rows that are independent: the identity on the first k places, and rows added to rows. */
static void dense(uint32_t n, uint32_t k)
{
    in.n = n;
    in.k = k;
    for (uint32_t i = 0; i < k; i++)
        in.rows[i] = 1u << i | ((uint32_t)(next() >> 20) & (ones_below(n) ^ ones_below(k)));
    for (uint32_t i = 0; i < 4 * k; i++) {
        uint32_t a = (uint32_t)(next() >> 33) % k, b = (uint32_t)(next() >> 33) % k;
        if (a != b)
            in.rows[a] ^= in.rows[b];
    }
}

/* A word of n places and this weight. */
static uint32_t pattern(uint32_t n, int weight)
{
    uint32_t e = 0;
    while (__builtin_popcount(e) < weight)
        e |= 1u << (next() >> 33) % n;
    return e;
}

/* Random words of so many places. */
static void random_words(uint32_t places)
{
    in.count = in.prepared = WORDS;
    for (size_t i = 0; i < WORDS; i++)
        in.words[i] = (uint32_t)(next() >> 20) & ones_below(places);
}

/* Codewords with so many changed places. */
static void sent(int changed)
{
    uint32_t messages[WORDS];
    size_t value;
    random_words(in.k);
    memcpy(messages, in.words, sizeof messages);
    plain_encode(in.n, in.k, in.rows, in.k, messages, WORDS, in.words, WORDS, &value);
    for (size_t i = 0; i < WORDS; i++)
        in.words[i] ^= pattern(in.n, changed);
}

static void small_code(void) { dense(7, 4); }
static void middle_code(void) { dense(23, 12); }
static void dense_code(void) { dense(28, 16); }
static void longest_code(void) { dense(RELAY_MAX_PLACES, RELAY_MAX_ROWS); }

/* The first random code of minimum distance 3; the one above has 4. */
static void longest_of_3(void)
{
    do
        longest_code();
    while (block_distance(in.k, in.rows) != 3);
}

/* The most rows with which describe walks all codewords, and one more. */
static void walked_code(void) { dense(25, 13); }
static void summed_code(void) { dense(26, 14); }

/* So many rows with a single one, from this place on: in the twelve other places no codeword has a one. */
static void single_places(uint32_t k, uint32_t first)
{
    in.n = k + 12;
    in.k = k;
    for (uint32_t i = 0; i < k; i++)
        in.rows[i] = 1u << (first + i);
}

static void single_code(void) { single_places(16, 0); }
static void longest_single_code(void) { single_places(20, 0); }

/* The zero places at the high end: every word of weight up to 12 is tried. */
static void worst_code(void) { single_places(16, 0); in.tried = 76717268; }
static void worst_longest_code(void) { single_places(20, 0); in.tried = 462411533; }

/* The zero places first: of weight 12 the words up to the one that has all of them. */
static void zeros_first_code(void) { single_places(16, 12); in.tried = 46295514; }

/* Rows of the extended BCH code (32,21), a polynomial times x^i with a parity place, shortened to k rows and 12 places more. Row 5 is left
 * out: without an earlier one, a place is always 0 or two places are always equal. The minimum distance is 6. */
static void bch(uint32_t k)
{
    in.n = k + 12;
    in.k = k;
    for (uint32_t i = 0; i < k; i++)
        in.rows[i] = 0x769u << (i < 5 ? i : i + 1) | 1u << (in.n - 1);
}

static void bch_code(void) { bch(16); }
static void longest_bch_code(void) { bch(RELAY_MAX_ROWS); }
static void bch_leaders(void) { bch_code(); in.tried = 127963; }
static void longest_bch_leaders(void) { longest_bch_code(); in.tried = 248350; }

static void hamming_code(void)
{
    static const uint32_t rows[4] = {0x0B, 0x16, 0x27, 0x45};
    in.n = 7;
    in.k = 4;
    memcpy(in.rows, rows, sizeof rows);
}

/* The perfect Golay code: its leaders are the words of weight up to 3, so that they take little of a call's time. */
static void perfect_code(void)
{
    in.n = 23;
    in.k = 12;
    for (uint32_t i = 0; i < 12; i++)
        in.rows[i] = 0xC75u << i;
}

static void extended_code(void)
{
    perfect_code();
    in.n = 24;
    for (uint32_t i = 0; i < 12; i++)
        in.rows[i] |= 1u << 23;
}

static void messages(void) { perfect_code(); random_words(in.k); }
static void clean(void) { perfect_code(); sent(0); }
static void damaged(void) { perfect_code(); sent(1); }
static void any_words(void) { perfect_code(); random_words(in.n); }
static void hamming_words(void) { hamming_code(); random_words(in.n); }
static void extended_words(void) { extended_code(); random_words(in.n); }

#define DESCRIBE(f, w) w.number = f(in.n, in.k, in.rows, in.k, w.reduced, w.checks, w.weights, &w.dmin, &w.lightest, &w.value)
static void describe_ours(void) { DESCRIBE(relay_describe, ours); }
static void describe_plain(void) { DESCRIBE(plain_describe, theirs); }

#define LEADERS(f, w) w.number = f(in.n, in.k, in.rows, in.k, w.work, RELAY_MAX_LEADERS, w.checks, &w.tried, &w.value)
static void leaders_ours(void) { LEADERS(relay_leaders, ours); }
static void leaders_plain(void) { LEADERS(plain_leaders, theirs); }
/* No word is tried, so that their number is not compared. */
static void leaders_made(void) { LEADERS(plain_leaders, theirs); theirs.tried = ours.tried; }

#define LISTS(f, w) w.number = f(in.n, in.k, in.rows, in.k, in.words, in.count, w.words, WORDS, &w.value)
static void encode_ours(void) { LISTS(relay_encode, ours); }
static void encode_plain(void) { LISTS(plain_encode, theirs); }
static void message_ours(void) { LISTS(relay_message, ours); }
static void message_plain(void) { LISTS(plain_message, theirs); }

static void decode_ours(void)
{
    ours.number = relay_decode(in.n, in.k, in.rows, in.k, 0, 0, in.words, in.count, ours.words, WORDS, ours.counts, WORDS,
                               ours.work, RELAY_MAX_LEADERS, &ours.value);
}

static void decode_plain(void)
{
    uint32_t d;
    theirs.number = plain_decode(in.n, in.k, in.rows, in.k, false, 0, in.words, in.count, theirs.words, WORDS, theirs.counts, WORDS,
                                 theirs.work, RELAY_MAX_LEADERS, &theirs.value, false, &d);
}

/* Sixteen codewords sent interleaved, received with a burst of as many bits as the radius mends; the words become the received. */
static void burst(uint32_t radius)
{
    size_t value, length = DEPTH * in.n;
    in.radius = radius;
    sent(0);
    in.count = in.prepared = DEPTH;
    plain_interleave(in.n, in.k, in.rows, in.k, in.words, DEPTH, in.bits, length, &value);
    for (size_t b = length / 2; b < length / 2 + DEPTH * radius; b++)
        in.bits[b] ^= 1;
    plain_deinterleave(in.n, in.k, in.rows, in.k, DEPTH, in.bits, length, in.words, DEPTH, &value);
}

static void small_bits(void) { dense(7, 4); burst(0); }
static void wide_bits(void) { dense(28, 16); burst(0); }

/* The first three words alone, and bits for as many. */
static void few_bits(void) { small_bits(); in.count = in.prepared = 3; }

/* The later eight words: the run with the first eight is subtracted. */
static void later_bits(void) { wide_bits(); in.fewer = DEPTH / 2; }

static void small_burst(void) { hamming_code(); burst(1); }
static void perfect_burst(void) { perfect_code(); burst(3); }
static void dense_burst(void) { dense(28, 16); burst(1); }

/* Without words, which would be refused, the matrix alone is asked for, by encode. */
#define INTERLEAVE(f, w) w.number = f(in.n, in.k, in.rows, in.k, in.words, in.count, w.bits, in.count * in.n, &w.value)
#define DEINTERLEAVE(f, w) w.number = f(in.n, in.k, in.rows, in.k, in.count, in.bits, in.count * in.n, w.words, WORDS, &w.value)
static void interleave_ours(void) { if (in.count) INTERLEAVE(relay_interleave, ours); else encode_ours(); }
static void interleave_plain(void) { if (in.count) INTERLEAVE(plain_interleave, theirs); else encode_plain(); }
static void deinterleave_ours(void) { if (in.count) DEINTERLEAVE(relay_deinterleave, ours); else encode_ours(); }
static void deinterleave_plain(void) { if (in.count) DEINTERLEAVE(plain_deinterleave, theirs); else encode_plain(); }

#define DECODE_BITS(f, w)                                                                                                         \
    w.number = f(in.n, in.k, in.rows, in.k, in.radius, in.count, in.bits, in.count * in.n, w.words, WORDS, w.counts, WORDS,       \
                 w.work, RELAY_MAX_LEADERS, &w.value)
static void decode_bits_ours(void) { DECODE_BITS(relay_decode_interleaved, ours); }
static void decode_bits_plain(void) { DECODE_BITS(plain_decode_interleaved, theirs); }

/* The received words themselves. */
static void decode_bits_words(void)
{
    theirs.number = relay_decode(in.n, in.k, in.rows, in.k, 1, in.radius, in.words, in.count, theirs.words, WORDS, theirs.counts,
                                 WORDS, theirs.work, RELAY_MAX_LEADERS, &theirs.value);
}

static void golay_messages(void)
{
    for (int i = 0; i < FIXED; i++)
        in.fixed[i] = (uint32_t)(next() >> 40) & 4095;
}

/* Golay codewords with so many changed places. */
static void golay(int changed)
{
    size_t value;
    prepare_tables();
    golay_messages();
    for (int i = 0; i < FIXED; i++) {
        plain_golay_encode(in.fixed[i], &in.fixed[i], &value);
        in.fixed[i] ^= pattern(24, changed);
    }
}

static void golay_0(void) { golay(0); }
static void golay_1(void) { golay(1); }
static void golay_2(void) { golay(2); }
static void golay_3(void) { golay(3); }
static void golay_4(void) { golay(4); }

#define EACH(call) for (int i = 0; i < FIXED; i++) call
#define CORRECT_GOLAY(f, w) EACH(f(in.fixed[i], &w.fixed[i], &w.counts[i], &w.value))
static void golay_encode_ours(void) { EACH(relay_golay_encode(in.fixed[i], &ours.fixed[i], &ours.value)); }
static void golay_encode_plain(void) { EACH(plain_golay_encode(in.fixed[i], &theirs.fixed[i], &theirs.value)); }
static void golay_decode_ours(void) { CORRECT_GOLAY(relay_golay_decode, ours); }
static void golay_decode_steps(void) { CORRECT_GOLAY(plain_golay_decode, theirs); }
static void golay_decode_lanes(void) { CORRECT_GOLAY(lanes_golay_decode, theirs); }
static void golay_decode_table(void) { CORRECT_GOLAY(table_golay_decode, theirs); }
static void golay_message_ours(void) { EACH(relay_golay_message(in.fixed[i], &ours.fixed[i], &ours.value)); }
static void golay_message_plain(void) { EACH(plain_golay_message(in.fixed[i], &theirs.fixed[i], &theirs.value)); }

/* Codewords of so many data bits, the width, with so many changed data places. */
static void split(uint32_t width, int changed)
{
    prepare_tables();
    in.width = width;
    in.wide = 64;
    for (int i = 0; i < FIXED; i++) {
        in.data[i] = next() >> (64 - width);
        in.check[i] = plain_hsiao_encode(in.data[i]);
        uint64_t e = 0;
        while (__builtin_popcountll(e) < changed)
            e |= UINT64_C(1) << (next() >> 33) % width;
        in.data[i] ^= e;
    }
}

/* The same with a changed check place, of so many. */
static void split_check(uint32_t width, int checks)
{
    split(width, 0);
    for (int i = 0; i < FIXED; i++)
        in.check[i] ^= (uint8_t)(1u << i % checks);
}

static void hsiao_0(void) { split(64, 0); }
static void hsiao_1(void) { split(64, 1); }
static void hsiao_2(void) { split(64, 2); }
static void hsiao_check(void) { split_check(64, 8); }
static void narrow_0(void) { split(16, 0); }
static void narrow_1(void) { split(16, 1); }
static void narrow_2(void) { split(16, 2); }
static void narrow_check(void) { split_check(16, 6); }
static void middle_0(void) { split(32, 0); }
static void middle_1(void) { split(32, 1); }
static void middle_2(void) { split(32, 2); }
static void middle_check(void) { split_check(32, 7); }

#define CORRECT(f, w) EACH((w.check[i] = in.check[i], w.data[i] = in.data[i], w.counts[i] = f(&w.check[i], &w.data[i])))
static void hsiao_encode_ours(void) { EACH(ours.check[i] = relay_hsiao_encode(in.data[i])); }
static void hsiao_encode_plain(void) { EACH(theirs.check[i] = plain_hsiao_encode(in.data[i])); }
static void hsiao_decode_ours(void) { CORRECT(relay_hsiao_decode, ours); }
static void hsiao_decode_folds(void) { CORRECT(plain_hsiao_decode, theirs); }
static void hsiao_decode_diagonals(void) { CORRECT(diagonal_hsiao_decode, theirs); }
static void hsiao_decode_tables(void) { CORRECT(table_hsiao_decode, theirs); }
static void hsiao_message_ours(void) { EACH(relay_hsiao_message(in.check[i], in.data[i], &ours.data[i], &ours.value)); }
static void hsiao_message_plain(void) { EACH(plain_hsiao_message(in.check[i], in.data[i], &theirs.data[i], &theirs.value)); }

#define WIDTH_ENCODE(f, width, w) EACH(f(width, in.data[i], &w.check[i], &w.value))
#define WIDTH_DECODE(f, width, w) EACH(f(width, in.check[i], in.data[i], &w.check[i], &w.data[i], &w.counts[i], &w.value))
#define WIDTH_MESSAGE(f, width, w) EACH(f(width, in.check[i], in.data[i], &w.data[i], &w.value))
static void width_encode_ours(void) { WIDTH_ENCODE(relay_hsiao_width_encode, in.width, ours); }
static void width_encode_plain(void) { WIDTH_ENCODE(plain_width_encode, in.width, theirs); }
static void width_encode_wide(void) { WIDTH_ENCODE(relay_hsiao_width_encode, in.wide, theirs); }
static void width_encode_64(void) { EACH(theirs.check[i] = relay_hsiao_encode(in.data[i])); }
static void width_decode_ours(void) { WIDTH_DECODE(relay_hsiao_width_decode, in.width, ours); }
static void width_decode_plain(void) { WIDTH_DECODE(plain_width_decode, in.width, theirs); }
static void width_decode_wide(void) { WIDTH_DECODE(relay_hsiao_width_decode, in.wide, theirs); }
static void width_decode_64(void) { CORRECT(relay_hsiao_decode, theirs); }
static void width_message_ours(void) { WIDTH_MESSAGE(relay_hsiao_width_message, in.width, ours); }
static void width_message_plain(void) { WIDTH_MESSAGE(plain_width_message, in.width, theirs); }
static void width_message_wide(void) { WIDTH_MESSAGE(relay_hsiao_width_message, in.wide, theirs); }
static void width_message_64(void) { EACH(relay_hsiao_message(in.check[i], in.data[i], &theirs.data[i], &theirs.value)); }

static void put(uint32_t x)
{
    for (int i = 0; i < 4; i++)
        in.sheet[in.sheet_len++] = (uint8_t)(x >> 8 * i);
}

static void field(uint8_t tag, size_t size)
{
    in.sheet[in.sheet_len++] = tag;
    in.sheet[in.sheet_len++] = (uint8_t)(size >> 8);
    in.sheet[in.sheet_len++] = (uint8_t)size;
}

static void byte_field(uint8_t tag, uint32_t content)
{
    field(tag, 1);
    in.sheet[in.sheet_len++] = (uint8_t)content;
}

/* A sheet of 512 random words; a negative radius is left out. */
static void sheet(int radius)
{
    random_words(in.n);
    byte_field(1, in.n);
    byte_field(2, in.k);
    field(3, 4 * in.k);
    for (uint32_t i = 0; i < in.k; i++)
        put(in.rows[i]);
    if (radius >= 0)
        byte_field(4, (uint32_t)radius);
    field(5, 4 * WORDS);
    for (int i = 0; i < WORDS; i++)
        put(in.words[i]);
}

static void sheet_small(void) { small_code(); sheet(-1); }
static void sheet_middle(void) { middle_code(); sheet(-1); }
static void sheet_other(void) { dense(23, 11); sheet(-1); }
static void sheet_dense(void) { dense_code(); sheet(-1); }
static void sheet_within(void) { dense_code(); sheet(1); }
static void sheet_longest(void) { longest_code(); sheet(-1); }
static void sheet_bch(void) { bch_code(); sheet(-1); }
static void sheet_longest_bch(void) { longest_bch_code(); sheet(-1); }
static void run_ours(void) { ours.length = relay_run(in.sheet, in.sheet_len, ours.out, sizeof ours.out); }
static void run_plain(void) { theirs.length = plain_run(in.sheet, in.sheet_len, theirs.out, sizeof theirs.out); }

#define TABLES {.blocks = true, .loops = true, .tables = true}
#define ALIKE {.rows = true, .loops = true, .batch = true}
#define MADE {.blocks = true, .syndromes = true, .tables = true}

#define DESCRIBE_CASE(name, prepare)                                                                                              \
    {"Describe", name, "Gray walk", prepare, describe_ours, describe_plain, {0}, 1, true, false, false},                          \
    {"Describe", name, "walk in blocks", prepare, describe_ours, describe_plain, {.blocks = true}, 1, true, false, false},        \
    {"Describe", name, "by the dual", prepare, describe_ours, describe_plain, {.dual = true}, 1, true, false, false}

#define LEADERS_CASE(name, prepare, timed)                                                                                        \
    {"Leaders", name, "recursion", prepare, leaders_ours, leaders_plain, {0}, 1, false, false, timed},                            \
    {"Leaders", name, "last two ones in loops", prepare, leaders_ours, leaders_plain, {.loops = true}, 1, false, false, timed},   \
    {"Leaders", name, "leaders from leaders", prepare, leaders_ours, leaders_made, {.syndromes = true}, 1, false, false, timed}

#define WORDS_CASE(code, name, prepare)                                                                                           \
    {"Words, " code, name, "parities", prepare, decode_ours, decode_plain, {.loops = true}, WORDS, true, true, false},            \
    {"Words, " code, name, "parities, row by row", prepare, decode_ours, decode_plain, ALIKE, WORDS, true, true, false},          \
    {"Words, " code, name, "tables of syndromes", prepare, decode_ours, decode_plain, TABLES, WORDS, true, true, false}

#define BITS_CASE(name, prepare, f, bits)                                                                                         \
    {"Interleaving", name, "word by word", prepare, f##_ours, f##_plain, {0}, bits, false, true, false},                          \
    {"Interleaving", name, "place by place", prepare, f##_ours, f##_plain, {.places = true}, bits, false, true, false}

#define LATER_CASE(name, f)                                                                                                       \
    {"Interleaving", name, "word by word", later_bits, f##_ours, f##_plain, {0}, DEPTH / 2 * 28, false, true, false}

#define BURST_CASE(name, prepare, bits)                                                                                           \
    {"Interleaving", name, "word by word, quick", prepare, decode_bits_ours, decode_bits_plain, {.blocks = true, .loops = true},  \
     bits, true, false, false},                                                                                                   \
    {"Interleaving", name, "relay_decode of the words", prepare, decode_bits_ours, decode_bits_words, {0}, bits, false, false, false}

#define GOLAY_CASE(name, prepare)                                                                                                 \
    {"Golay", name, "000's steps", prepare, golay_decode_ours, golay_decode_steps, {0}, FIXED, true, false, false},               \
    {"Golay", name, "twelve tests side by side", prepare, golay_decode_ours, golay_decode_lanes, {0}, FIXED, true, false, false}, \
    {"Golay", name, "table of 4,096 patterns", prepare, golay_decode_ours, golay_decode_table, {0}, FIXED, true, false, false}

#define HSIAO_CASE(name, prepare)                                                                                                 \
    {"(72,64)", name, "folds and a scan", prepare, hsiao_decode_ours, hsiao_decode_folds, {0}, FIXED, false, false, false},       \
    {"(72,64)", name, "diagonals and a scan", prepare, hsiao_decode_ours, hsiao_decode_diagonals, {0}, FIXED, false, false, false}, \
    {"(72,64)", name, "tables of 256", prepare, hsiao_decode_ours, hsiao_decode_tables, {0}, FIXED, false, false, false}

#define WIDTH_CASE(name, prepare, f)                                                                                              \
    {"Widths", name, "diagonals and a scan", prepare, f##_ours, f##_plain, {0}, FIXED, false, false, false},                      \
    {"Widths", name, "the (72,64) call", prepare, f##_ours, f##_64, {0}, FIXED, false, false, false},                             \
    {"Widths", name, "the same call, width 64", prepare, f##_ours, f##_wide, {0}, FIXED, false, false, false}

#define SHEET_CASE(name, prepare)                                                                                                 \
    {"Sheets of 512 words", name, "plain", prepare, run_ours, run_plain, {0}, 1, true, false, false},                             \
    {"Sheets of 512 words", name, "quick", prepare, run_ours, run_plain, {.blocks = true, .loops = true}, 1, true, false, false}, \
    {"Sheets of 512 words", name, "the library's methods", prepare, run_ours, run_plain, ALIKE, 1, true, false, false},           \
    {"Sheets of 512 words", name, "quick, tables", prepare, run_ours, run_plain, TABLES, 1, true, false, false},                  \
    {"Sheets of 512 words", name, "leaders from leaders, tables", prepare, run_ours, run_plain, MADE, 1, true, false, false}

const Case cases[] = {
    DESCRIBE_CASE("random (7,4)", small_code),
    DESCRIBE_CASE("random (23,12)", middle_code),
    DESCRIBE_CASE("perfect (23,12)", perfect_code),
    DESCRIBE_CASE("random (25,13)", walked_code),
    DESCRIBE_CASE("random (26,14)", summed_code),
    DESCRIBE_CASE("dense (28,16)", dense_code),
    DESCRIBE_CASE("extended BCH (28,16)", bch_code),
    DESCRIBE_CASE("single places (28,16)", single_code),
    DESCRIBE_CASE("dense (32,20)", longest_code),
    DESCRIBE_CASE("random (32,20), dmin 3", longest_of_3),
    DESCRIBE_CASE("extended BCH (32,20)", longest_bch_code),
    DESCRIBE_CASE("single places (32,20)", longest_single_code),
    LEADERS_CASE("dense (28,16)", dense_code, false),
    LEADERS_CASE("extended BCH (28,16)", bch_leaders, false),
    LEADERS_CASE("dense (32,20)", longest_code, false),
    LEADERS_CASE("extended BCH (32,20)", longest_bch_leaders, false),
    LEADERS_CASE("zero places first (28,16)", zeros_first_code, false),
    LEADERS_CASE("worst (28,16)", worst_code, false),
    LEADERS_CASE("worst (32,20)", worst_longest_code, true),
    WORDS_CASE("Hamming (7,4)", "decode, random words", hamming_words),
    {"Words, perfect (23,12)", "encode", "row sums", messages, encode_ours, encode_plain, {0}, WORDS, false, true, false},
    {"Words, perfect (23,12)", "read back", "parities", clean, message_ours, message_plain, {0}, WORDS, true, true, false},
    WORDS_CASE("perfect (23,12)", "decode, clean", clean),
    WORDS_CASE("perfect (23,12)", "decode, 1 changed place", damaged),
    WORDS_CASE("perfect (23,12)", "decode, random words", any_words),
    WORDS_CASE("extended Golay (24,12)", "decode, random words", extended_words),
    BITS_CASE("interleave (7,4)", small_bits, interleave, DEPTH * 7),
    BITS_CASE("interleave (7,4), three words", few_bits, interleave, 3 * 7),
    BITS_CASE("interleave (28,16)", wide_bits, interleave, DEPTH * 28),
    LATER_CASE("interleave (28,16), later words", interleave),
    BITS_CASE("deinterleave (7,4)", small_bits, deinterleave, DEPTH * 7),
    BITS_CASE("deinterleave (7,4), three words", few_bits, deinterleave, 3 * 7),
    BITS_CASE("deinterleave (28,16)", wide_bits, deinterleave, DEPTH * 28),
    LATER_CASE("deinterleave (28,16), later words", deinterleave),
    BURST_CASE("decode within 1, (7,4)", small_burst, DEPTH * 7),
    BURST_CASE("decode within 3, perfect (23,12)", perfect_burst, DEPTH * 23),
    BURST_CASE("decode within 1, dense (28,16)", dense_burst, DEPTH * 28),
    {"Golay", "encode", "row sums", golay_messages, golay_encode_ours, golay_encode_plain, {0}, FIXED, false, false, false},
    GOLAY_CASE("decode, 0 changed places", golay_0),
    GOLAY_CASE("decode, 1 changed place", golay_1),
    GOLAY_CASE("decode, 2 changed places", golay_2),
    GOLAY_CASE("decode, 3 changed places", golay_3),
    GOLAY_CASE("decode, 4 changed places (far)", golay_4),
    {"Golay", "read back", "row sums", golay_0, golay_message_ours, golay_message_plain, {0}, FIXED, false, false, false},
    {"(72,64)", "encode", "folds", hsiao_0, hsiao_encode_ours, hsiao_encode_plain, {0}, FIXED, false, false, false},
    HSIAO_CASE("decode, 0 changed places", hsiao_0),
    HSIAO_CASE("decode, 1 changed data place", hsiao_1),
    HSIAO_CASE("decode, 1 changed check place", hsiao_check),
    HSIAO_CASE("decode, 2 changed places (far)", hsiao_2),
    {"(72,64)", "read back", "folds", hsiao_0, hsiao_message_ours, hsiao_message_plain, {0}, FIXED, false, false, false},
    WIDTH_CASE("16, encode", narrow_0, width_encode),
    WIDTH_CASE("16, decode, 0 changed places", narrow_0, width_decode),
    WIDTH_CASE("16, decode, 1 changed data place", narrow_1, width_decode),
    WIDTH_CASE("16, decode, 1 changed check place", narrow_check, width_decode),
    WIDTH_CASE("16, decode, 2 changed places (far)", narrow_2, width_decode),
    WIDTH_CASE("16, read back", narrow_0, width_message),
    WIDTH_CASE("32, encode", middle_0, width_encode),
    WIDTH_CASE("32, decode, 0 changed places", middle_0, width_decode),
    WIDTH_CASE("32, decode, 1 changed data place", middle_1, width_decode),
    WIDTH_CASE("32, decode, 1 changed check place", middle_check, width_decode),
    WIDTH_CASE("32, decode, 2 changed places (far)", middle_2, width_decode),
    WIDTH_CASE("32, read back", middle_0, width_message),
    SHEET_CASE("random (7,4)", sheet_small),
    SHEET_CASE("random (23,12)", sheet_middle),
    SHEET_CASE("random (23,11)", sheet_other),
    SHEET_CASE("dense (28,16)", sheet_dense),
    SHEET_CASE("dense (28,16), within 1", sheet_within),
    SHEET_CASE("extended BCH (28,16)", sheet_bch),
    SHEET_CASE("dense (32,20)", sheet_longest),
    SHEET_CASE("extended BCH (32,20)", sheet_longest_bch),
};

const size_t case_count = sizeof cases / sizeof *cases;
