/* The header against the library: version, names of the causes, texts, sizes, and other numbers than 0 and 1 as `within`. Valid C
 * and C++; built and run as both by bench/run. Prints each fact that does not hold; exit status 1 where there is one. */
#include "relaymarten.h"
#include <stdio.h>
#include <string.h>

static int failed;

#define HOLDS(fact) holds(fact, #fact, __LINE__)

static void holds(int fact, const char *text, int line)
{
    if (!fact) {
        printf("line %d: does not hold: %s\n", line, text);
        failed = 1;
    }
}

static const uint32_t rows[3] = {0x31, 0x2A, 0x1C}, seven[4] = {0x0B, 0x16, 0x27, 0x45};
static uint32_t words[RELAY_MAX_WORDS + 1], out[RELAY_MAX_WORDS + 1], work[RELAY_MAX_LEADERS];
static uint8_t counts[RELAY_MAX_WORDS + 1];

static void version(void)
{
    HOLDS(relay_version() == RELAY_VERSION);
    HOLDS(RELAY_VERSION_MAJOR == RELAY_VERSION / 10000);
    HOLDS(RELAY_VERSION_MINOR == RELAY_VERSION / 100 % 100);
    HOLDS(RELAY_VERSION_PATCH == RELAY_VERSION % 100);
}

/* Each number has a text of its own; 11 is none. */
static void texts(void)
{
    const char *unknown = relay_text(99);
    for (uint32_t i = RELAY_DONE; i <= RELAY_NO_BITS; i++) {
        HOLDS(strlen(relay_text(i)) > 0 && (strcmp(relay_text(i), unknown) == 0) == (i == 11));
        for (uint32_t j = 0; j < i; j++)
            HOLDS(strcmp(relay_text(i), relay_text(j)) != 0);
    }
    HOLDS(strlen(unknown) > 0);
    HOLDS(strcmp(relay_text(RELAY_NO_BITS + 1), unknown) == 0);
    HOLDS(strcmp(relay_text(UINT32_MAX), unknown) == 0);
}

static uint32_t encode(uint32_t n, uint32_t k, const uint32_t *matrix, size_t rows_len, size_t m, size_t slots)
{
    size_t value = 99;
    return relay_encode(n, k, matrix, rows_len, words, m, out, slots, &value);
}

static uint32_t decode(uint32_t within, uint32_t radius, size_t m, size_t entries)
{
    size_t value = 99;
    return relay_decode(6, 3, rows, 3, within, radius, words, m, out, m, counts, m, work, entries, &value);
}

/* A call for each name. */
static void causes(void)
{
    const uint32_t outside[3] = {0x31, 0x2A, 0x40}, dependent[3] = {0x31, 0x2A, 0x1B};
    const uint32_t other = 1;
    size_t value = 99;
    memset(words, 0, sizeof words);
    HOLDS(encode(6, 3, rows, 3, 1, 1) == RELAY_DONE);
    HOLDS(encode(RELAY_MAX_PLACES + 1, 3, rows, 3, 1, 1) == RELAY_OUT_OF_RANGE);
    HOLDS(encode(6, 3, rows, 2, 1, 1) == RELAY_ROW_COUNT);
    HOLDS(encode(6, 3, outside, 3, 1, 1) == RELAY_ROW_OUTSIDE);
    HOLDS(encode(6, 3, dependent, 3, 1, 1) == RELAY_DEPENDENT);
    HOLDS(decode(1, 2, 1, 8) == RELAY_RADIUS_TOO_LARGE);
    HOLDS(encode(6, 3, rows, 3, RELAY_MAX_WORDS, RELAY_MAX_WORDS) == RELAY_DONE);
    HOLDS(encode(6, 3, rows, 3, RELAY_MAX_WORDS + 1, RELAY_MAX_WORDS + 1) == RELAY_TOO_MANY_WORDS);
    words[1] = 8;
    HOLDS(encode(6, 3, rows, 3, 2, 2) == RELAY_WORD_OUTSIDE);
    HOLDS(encode(6, 3, rows, 3, 1, 0) == RELAY_SHORT_OUTPUT);
    HOLDS(decode(0, 0, 1, 7) == RELAY_SHORT_WORK);
    HOLDS(relay_message(6, 3, rows, 3, &other, 1, out, 1, &value) == RELAY_NO_CODEWORD);
    HOLDS(value == 0);
}

/* What relay_run says of a sheet is the line of this cause and value. */
static int says(const uint8_t *sheet, size_t length, int cause, unsigned value)
{
    static uint8_t printed[RELAY_MAX_OUTPUT];
    char line[40];
    int wanted = snprintf(line, sizeof line, "refused %d %u\n", cause, value);
    return relay_run(sheet, length, printed, sizeof printed) == (size_t)wanted && memcmp(printed, line, (size_t)wanted) == 0;
}

static void sheets(void)
{
    static uint8_t sheet[RELAY_MAX_SHEET + 1], room[RELAY_MAX_OUTPUT];
    HOLDS(says(sheet, 0, RELAY_SHEET_TAG, 0));
    HOLDS(says(sheet, 2, RELAY_SHEET_LAYOUT, 0));
    HOLDS(says(sheet, RELAY_MAX_SHEET, RELAY_SHEET_TAG, 0));
    HOLDS(says(sheet, RELAY_MAX_SHEET + 1, RELAY_SHEET_LAYOUT, RELAY_MAX_SHEET));
    HOLDS(relay_run(sheet, 0, room, RELAY_MAX_OUTPUT) > 0);
    room[0] = 7;
    HOLDS(relay_run(sheet, 0, room, RELAY_MAX_OUTPUT - 1) == 0 && room[0] == 7);
}

/* Word 0 is far within radius 1, and has a nearest codeword. */
static void readings(void)
{
    static const uint32_t within[] = {1, 2, 3, 0x100, 0x10000, 0x80000000, UINT32_MAX};
    words[0] = 0x23;
    words[1] = 0x1F;
    for (size_t i = 0; i < sizeof within / sizeof *within; i++) {
        memset(counts, 7, sizeof counts);
        HOLDS(decode(within[i], 1, 2, 8) == RELAY_DONE);
        HOLDS(counts[0] == RELAY_FAR && out[0] == 0x23 && counts[1] == 1 && out[1] == 0x1B);
        HOLDS(decode(within[i], 2, 2, 8) == RELAY_RADIUS_TOO_LARGE);
    }
    HOLDS(decode(0, UINT32_MAX, 2, 8) == RELAY_DONE);
    HOLDS(counts[0] == 2 && out[0] == 0x2A && counts[1] == 1 && out[1] == 0x1B);
}

/* One code by two matrices has one lightest codeword. */
static void lightest(void)
{
    const uint32_t first[2] = {0x1D, 0x16}, second[2] = {0x1D, 0x0B};
    uint32_t reduced[RELAY_MAX_ROWS], checks[RELAY_MAX_CHECKS], weights[RELAY_WEIGHTS], dmin, found;
    size_t value;
    HOLDS(relay_describe(5, 2, first, 2, reduced, checks, weights, &dmin, &found, &value) == RELAY_DONE);
    HOLDS(dmin == 3 && weights[3] == 2 && found == 0x0B);
    HOLDS(relay_describe(5, 2, second, 2, reduced, checks, weights, &dmin, &found, &value) == RELAY_DONE);
    HOLDS(dmin == 3 && weights[3] == 2 && found == 0x0B);
}

/* How many words are tried, or the cause. The last leader stands in the list, and the slot after the leaders is kept; on a refusal
 * the list is as it was, and the rest 0. */
static uint32_t tried(uint32_t n, uint32_t k, const uint32_t *matrix, size_t entries, uint32_t last)
{
    uint32_t checks[RELAY_MAX_CHECKS], number, found = 99;
    size_t value = 99, leaders = (size_t)1 << (n - k);
    memset(checks, 0xA5, sizeof checks);
    memset(work, 0xA5, sizeof work);
    number = relay_leaders(n, k, matrix, k, work, entries, checks, &found, &value);
    HOLDS(value == 0);
    if (number != RELAY_DONE) {
        HOLDS(found == 0 && checks[0] == 0 && checks[RELAY_MAX_CHECKS - 1] == 0 && work[0] == 0xA5A5A5A5);
        return 1000 + number;
    }
    HOLDS(work[0] == 0 && work[leaders - 1] != 0xA5A5A5A5 && (leaders == RELAY_MAX_LEADERS || work[leaders] == 0xA5A5A5A5));
    size_t at = 0;
    while (at < leaders && work[at] != last)
        at++;
    HOLDS(at < leaders);
    return found;
}

static void leaders(void)
{
    const uint32_t five[2] = {0x1D, 0x16}, ones = 0x1FFF, first = 1, both = 3;
    HOLDS(tried(7, 4, seven, 8, 0x40) == 8 && tried(5, 2, five, 8, 0x0C) == 12 && tried(6, 3, rows, 9, 0x09) == 11);
    HOLDS(tried(2, 1, &both, 2, 0x01) == 2 && tried(2, 1, &first, RELAY_MAX_LEADERS, 0x02) == 3);
    HOLDS(tried(13, 1, &ones, RELAY_MAX_LEADERS, 0x1F80) == 4096);
    HOLDS(tried(13, 1, &ones, RELAY_MAX_LEADERS - 1, 0) == 1000 + RELAY_SHORT_WORK);
    HOLDS(tried(7, 4, seven, 7, 0) == 1000 + RELAY_SHORT_WORK && tried(14, 1, &ones, 9, 0) == 1000 + RELAY_OUT_OF_RANGE);
}

/* The bits of so many of the words are these digits, or the cause, with every byte as it was. The byte after them is kept. */
static uint32_t interleaved(uint32_t n, size_t depth, size_t length, const char *digits)
{
    static uint8_t bits[RELAY_MAX_WORDS];
    size_t value = 99;
    memset(bits, 9, sizeof bits);
    uint32_t number = relay_interleave(n, 4, seven, 4, words, depth, bits, length, &value);
    HOLDS(bits[length] == 9 && (number == RELAY_DONE || length == 0 || (bits[0] == 9 && bits[length - 1] == 9)));
    for (size_t b = 0; number == RELAY_DONE && b < length; b++)
        HOLDS(bits[b] == digits[b] - '0');
    return 100 * number + (uint32_t)value;
}

static void sending(void)
{
    memset(words, 0, sizeof words);
    HOLDS(interleaved(7, 1, 7, "0000000") == RELAY_DONE);
    HOLDS(interleaved(7, 0, 0, "") == 100 * RELAY_NO_DEPTH && interleaved(7, 17, 5, "") == 100 * RELAY_NO_DEPTH);
    words[1] = 0x80;
    HOLDS(interleaved(7, 2, 13, "") == 100 * RELAY_NO_BITS && interleaved(7, 2, 14, "") == 100 * RELAY_WORD_OUTSIDE + 1);
    HOLDS(interleaved(7, 17, 119, "") == 100 * RELAY_NO_DEPTH && interleaved(17, 17, 5, "") == 100 * RELAY_OUT_OF_RANGE);
    words[0] = 0x1D;
    words[1] = 0x45;
    words[2] = 0x7F;
    HOLDS(interleaved(7, 3, 21, "111001111101101001011") == RELAY_DONE);
}

/* The number of either call on received bits, with lists of so many slots; on a refusal they are as they were. */
static uint32_t sorted(size_t depth, const uint8_t *bits, size_t length, size_t slots)
{
    size_t value = 99;
    memset(out, 0xA5, sizeof out);
    uint32_t number = relay_deinterleave(7, 4, seven, 4, depth, bits, length, out, slots, &value);
    HOLDS(value == 0 && out[number == RELAY_DONE ? depth : 0] == 0xA5A5A5A5);
    return number;
}

static uint32_t mended(uint32_t radius, size_t depth, const uint8_t *bits, size_t length, size_t bytes, size_t entries)
{
    size_t value = 99;
    memset(out, 0xA5, sizeof out);
    memset(counts, 0xA5, sizeof counts);
    memset(work, 0xA5, sizeof work);
    uint32_t number =
        relay_decode_interleaved(7, 4, seven, 4, radius, depth, bits, length, out, depth, counts, bytes, work, entries, &value);
    size_t written = number == RELAY_DONE ? depth : 0;
    HOLDS(value == 0 && out[written] == 0xA5A5A5A5 && counts[written] == 0xA5);
    HOLDS(work[number == RELAY_DONE ? 8 : 0] == 0xA5A5A5A5);
    return number;
}

static int gives(uint32_t first, int a, int b, int c)
{
    return out[0] == first && out[1] == 0x45 && out[2] == 0x7F && counts[0] == a && counts[1] == b && counts[2] == c;
}

/* The three words sent above, with changed bits: a burst of three comes back, two bits further apart hit word 0 twice. */
static void bursts(void)
{
    uint8_t bits[22];
    for (int b = 0; b < 22; b++)
        bits[b] = "1110011111011010010110"[b] == '1';
    HOLDS(sorted(3, bits, 21, 4) == RELAY_DONE && out[0] == 0x1D && out[1] == 0x45 && out[2] == 0x7F);
    for (int b = 10; b <= 12; b++)
        bits[b] ^= 1;
    HOLDS(mended(1, 3, bits, 21, 3, 8) == RELAY_DONE && gives(0x1D, 1, 1, 1));
    for (int b = 9; b <= 11; b++)
        bits[b] ^= 1;
    HOLDS(mended(1, 3, bits, 21, 3, 8) == RELAY_DONE && gives(0x45, 1, 0, 0));
    bits[12] ^= 1;
    HOLDS(mended(0, 3, bits, 21, 3, 8) == RELAY_DONE && gives(0x1D ^ 8, RELAY_FAR, 0, 0));
    HOLDS(sorted(0, bits, 0, 3) == RELAY_NO_DEPTH && sorted(17, bits, 21, 0) == RELAY_NO_DEPTH);
    HOLDS(sorted(SIZE_MAX, bits, 21, 3) == RELAY_NO_DEPTH);
    HOLDS(sorted(3, bits, 20, 0) == RELAY_NO_BITS && sorted(3, bits, 22, 3) == RELAY_NO_BITS);
    HOLDS(sorted(2, bits, 14, 1) == RELAY_SHORT_OUTPUT);
    HOLDS(mended(2, 17, bits, 21, 0, 0) == RELAY_RADIUS_TOO_LARGE && mended(1, 17, bits, 21, 0, 0) == RELAY_NO_DEPTH);
    HOLDS(mended(1, 2, bits, 15, 2, 8) == RELAY_NO_BITS && mended(1, 2, bits, 14, 1, 8) == RELAY_SHORT_OUTPUT);
    HOLDS(mended(1, 2, bits, 14, 2, 7) == RELAY_SHORT_WORK);
    bits[13] = 2;
    HOLDS(sorted(2, bits, 14, 1) == RELAY_NO_BITS && mended(1, 2, bits, 14, 1, 7) == RELAY_NO_BITS);
    HOLDS(sorted(1, bits, 7, 1) == RELAY_DONE);
    memset(bits, 0, 13);
    HOLDS(sorted(2, bits, 14, 2) == RELAY_NO_BITS && mended(1, 2, bits, 14, 2, 8) == RELAY_NO_BITS);
}

/* The check bits of data by their width, or the cause, with 0 in every other part. */
static uint32_t width_check(uint32_t width, uint64_t data)
{
    uint8_t check = 99;
    size_t value = 99;
    uint32_t number = relay_hsiao_width_encode(width, data, &check, &value);
    HOLDS(value == 0 && (number == RELAY_DONE || check == 0));
    return number == RELAY_DONE ? check : 1000 + number;
}

/* The count of a word by its width, or the cause, with 0 in every other part; the data becomes the word's. */
static uint32_t width_count(uint32_t width, uint8_t check, uint64_t *data)
{
    uint8_t word_check = 99, count = 99;
    uint64_t word_data = 99;
    size_t value = 99;
    uint32_t number = relay_hsiao_width_decode(width, check, *data, &word_check, &word_data, &count, &value);
    HOLDS(value == 0 && (number == RELAY_DONE || (word_check == 0 && word_data == 0 && count == 0)));
    *data = word_data;
    return number == RELAY_DONE ? count : 1000 + number;
}

static void widths(void)
{
    uint64_t data = 0, message = 99;
    size_t value = 99;
    HOLDS(width_check(16, 0x8000) == 0x2C && width_check(32, 0xDEADBEEF) == 0x05 && width_check(64, 1) == 0x07);
    HOLDS(width_check(16, 0x10000) == 1000 + RELAY_BEYOND_WIDTH && width_check(32, UINT64_MAX) == 1000 + RELAY_BEYOND_WIDTH);
    HOLDS(width_check(24, UINT64_MAX) == 1000 + RELAY_NO_WIDTH && width_check(UINT32_MAX, 0) == 1000 + RELAY_NO_WIDTH);
    HOLDS(width_count(16, 0x2C, &data) == 1 && data == 0x8000);
    data = 0;
    HOLDS(width_count(16, 0x31, &data) == RELAY_FAR && data == 0 && width_count(32, 0x64, &data) == RELAY_FAR && data == 0);
    HOLDS(width_count(64, 0x31, &data) == 1 && data == 0x10000);
    data = 1;
    HOLDS(width_count(16, 0x47, &data) == 1000 + RELAY_BEYOND_WIDTH);
    data = 1;
    HOLDS(width_count(17, 0x07, &data) == 1000 + RELAY_NO_WIDTH);
    HOLDS(relay_hsiao_width_message(16, 0x47, 1, &message, &value) == RELAY_BEYOND_WIDTH && message == 0 && value == 0);
    HOLDS(relay_hsiao_width_message(16, 0x06, 1, &message, &value) == RELAY_NO_CODEWORD && message == 0 && value == 0);
    HOLDS(relay_hsiao_width_message(33, 0x07, 1, &message, &value) == RELAY_NO_WIDTH && message == 0 && value == 0);
    HOLDS(relay_hsiao_width_message(16, 0x07, 1, &message, &value) == RELAY_DONE && message == 1 && value == 0);
}

/* (31,20), the words of even weight of a BCH code: the rows are a generator polynomial times x^i. */
static void longer_code(void)
{
    uint32_t matrix[RELAY_MAX_ROWS], reduced[RELAY_MAX_ROWS], checks[RELAY_MAX_CHECKS], weights[RELAY_WEIGHTS], dmin, found;
    size_t value;
    for (uint32_t i = 0; i < RELAY_MAX_ROWS; i++)
        matrix[i] = 0x9BBu << i;
    HOLDS(relay_describe(31, 20, matrix, 20, reduced, checks, weights, &dmin, &found, &value) == RELAY_DONE);
    HOLDS(dmin == 6 && found == 0x3C21 && weights[6] == 806 && weights[16] == 301971 && weights[26] == 186 && weights[31] == 0);
    HOLDS((reduced[19] & 0xFFFFF) == 0x80000 && checks[10] >> 30 == 1 && checks[11] == 0);
    HOLDS(tried(31, 20, matrix, 2048, 0x2185) == 37851);
    matrix[3] |= 1u << 31;
    HOLDS(relay_describe(31, 20, matrix, 20, reduced, checks, weights, &dmin, &found, &value) == RELAY_ROW_OUTSIDE && value == 3);
}

/* At 32 places every number is a word: a row and a word of 32 ones are accepted, and that codeword is clean and read back. Two words
 * are mended at place 31, one is far. */
static void every_word(void)
{
    const uint32_t all = UINT32_MAX, messages[3] = {0, 0xFFFFF, 0x100000};
    const uint32_t received[4] = {all, all ^ 0x80000000u, 0x80000000u, 7};
    uint32_t matrix[RELAY_MAX_ROWS], read = 99;
    size_t value = 99;
    for (uint32_t i = 0; i < 19; i++)
        matrix[i] = 0x769u << i;
    matrix[19] = all;
    HOLDS(relay_decode(32, 20, matrix, 20, 1, 2, received, 4, out, 4, counts, 4, work, RELAY_MAX_LEADERS, &value) == RELAY_DONE);
    HOLDS(out[0] == all && counts[0] == 0 && out[1] == all && counts[1] == 1);
    HOLDS(out[2] == 0 && counts[2] == 1 && out[3] == 7 && counts[3] == RELAY_FAR);
    HOLDS(relay_message(32, 20, matrix, 20, &all, 1, &read, 1, &value) == RELAY_DONE && read == 0x80000);
    HOLDS(relay_encode(32, 20, matrix, 20, messages, 3, out, 3, &value) == RELAY_WORD_OUTSIDE && value == 2);
    HOLDS(relay_encode(32, 20, matrix, 20, messages, 2, out, 2, &value) == RELAY_DONE);
}

/* n and k at the limits: n - k is 1 to 12 too. */
static void limits(void)
{
    static const uint32_t passing[][2] = {{32, 20}, {31, 19}, {29, 17}, {28, 16}, {13, 1}};
    static const uint32_t refused[][2] = {{33, 21}, {21, 21}, {29, 16}, {32, 19}, {20, 20}, {14, 1}, {16, 16}, {33, 20}, {32, 21}};
    uint32_t matrix[RELAY_MAX_ROWS + 1];
    for (uint32_t i = 0; i <= RELAY_MAX_ROWS; i++)
        matrix[i] = 1u << i;
    words[0] = 0;
    for (size_t i = 0; i < sizeof passing / sizeof *passing; i++)
        HOLDS(encode(passing[i][0], passing[i][1], matrix, passing[i][1], 1, 1) == RELAY_DONE);
    for (size_t i = 0; i < sizeof refused / sizeof *refused; i++)
        HOLDS(encode(refused[i][0], refused[i][1], matrix, refused[i][1], 1, 1) == RELAY_OUT_OF_RANGE);
    HOLDS(encode(32, 20, matrix, 21, 1, 1) == RELAY_ROW_COUNT);
}

/* The largest code: lists of the stated sizes are long enough, and written to their end and no further. */
static void sizes(void)
{
    uint32_t matrix[RELAY_MAX_ROWS], reduced[RELAY_MAX_ROWS + 1], checks[RELAY_MAX_CHECKS + 1], weights[RELAY_WEIGHTS + 1];
    uint32_t dmin, lightest, word = 0;
    size_t value, short_work = RELAY_MAX_LEADERS - 1;
    HOLDS(RELAY_MAX_PLACES == 32 && RELAY_MAX_ROWS == 20 && RELAY_MAX_CHECKS == 12);
    for (uint32_t i = 0; i < RELAY_MAX_ROWS; i++)
        matrix[i] = 1u << i | (0x9E3779B9u * (i + 1) & 0xFFF00000u);
    memset(reduced, 0xA5, sizeof reduced);
    memset(checks, 0xA5, sizeof checks);
    memset(weights, 0xA5, sizeof weights);
    HOLDS(relay_describe(RELAY_MAX_PLACES, RELAY_MAX_ROWS, matrix, RELAY_MAX_ROWS, reduced, checks, weights, &dmin, &lightest,
                         &value) == RELAY_DONE);
    HOLDS(reduced[RELAY_MAX_ROWS - 1] != 0xA5A5A5A5 && reduced[RELAY_MAX_ROWS] == 0xA5A5A5A5);
    HOLDS(checks[RELAY_MAX_CHECKS - 1] != 0xA5A5A5A5 && checks[RELAY_MAX_CHECKS] == 0xA5A5A5A5);
    HOLDS(weights[RELAY_WEIGHTS - 1] == 0 && weights[RELAY_WEIGHTS] == 0xA5A5A5A5);
    HOLDS(relay_decode(RELAY_MAX_PLACES, RELAY_MAX_ROWS, matrix, RELAY_MAX_ROWS, 0, 0, &word, 1, out, 1, counts, 1, work,
                       RELAY_MAX_LEADERS, &value) == RELAY_DONE);
    HOLDS(relay_decode(RELAY_MAX_PLACES, RELAY_MAX_ROWS, matrix, RELAY_MAX_ROWS, 0, 0, &word, 1, out, 1, counts, 1, work,
                       short_work, &value) == RELAY_SHORT_WORK);
}

int main(void)
{
    version();
    texts();
    causes();
    sheets();
    readings();
    lightest();
    leaders();
    sending();
    bursts();
    widths();
    longer_code();
    every_word();
    limits();
    sizes();
    return failed;
}
