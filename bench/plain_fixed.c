/* The two fixed codes, one word at a time. */
#include "plain.h"

/* In whatever number of places it is called. */
#define INLINED __attribute__((always_inline)) static inline

static const uint32_t P[12] = {0xB71, 0xDB8, 0xADC, 0x96E, 0x8B7, 0xC5B, 0xE2D, 0xF16, 0xB8B, 0xDC5, 0xEE2, 0x7FF};

INLINED uint32_t check_sum(uint32_t u)
{
    uint32_t s = 0;
    for (int i = 0; i < 12; i++)
        if (u >> i & 1)
            s ^= P[i];
    return s;
}

uint32_t plain_golay_encode(uint32_t message, uint32_t *word, size_t *value)
{
    *value = 0;
    *word = 0;
    if (message >> 12)
        return 7;
    *word = message << 12 | check_sum(message);
    return 0;
}

uint32_t plain_golay_message(uint32_t codeword, uint32_t *message, size_t *value)
{
    *value = 0;
    *message = 0;
    if (codeword >> 24)
        return 7;
    if ((codeword & 4095) != check_sum(codeword >> 12))
        return 10;
    *message = codeword >> 12;
    return 0;
}

/* The steps of the textbook: the syndrome, its sums with a row of P, then the same for the syndrome times P. */
INLINED bool golay_pattern(uint32_t s, uint32_t *e)
{
    if (ones(s) <= 3) {
        *e = s;
        return true;
    }
    for (int i = 0; i < 12; i++)
        if (ones(s ^ P[i]) <= 2) {
            *e = (s ^ P[i]) | 1u << (12 + i);
            return true;
        }
    uint32_t t = check_sum(s);
    if (ones(t) <= 3) {
        *e = t << 12;
        return true;
    }
    for (int i = 0; i < 12; i++)
        if (ones(t ^ P[i]) <= 2) {
            *e = (t ^ P[i]) << 12 | 1u << i;
            return true;
        }
    return false;
}

/* The first row of P within distance 2 of s, or 12: the twelve tests side by side, lane i of five bits for row i. */
INLINED uint32_t near_row(uint32_t s)
{
    static const uint64_t PLACES[12] = {0x80210042100001, 0x84010802108000, 0x80200840108400, 0x80010042008420, 0x80000802100421,
                                        0x84000040108021, 0x84200002008401, 0x84210000100420, 0x80210800008021, 0x84010840000401,
                                        0x84200842000020, 0x4210842108421};
    uint64_t reached = 0x5B5AD6B5AD6B5AD - ones(s) / 2 * UINT64_C(0x84210842108421);
    for (int j = 0; j < 12; j++)
        reached += PLACES[j] * (s >> j & 1);
    reached &= 0x842108421084210;
    return reached ? (uint32_t)__builtin_ctzll(reached) / 5 : 12;
}

INLINED bool lanes_half(uint32_t s, uint32_t *e)
{
    *e = s;
    if (ones(s) <= 3)
        return true;
    uint32_t i = near_row(s);
    if (i == 12)
        return false;
    *e = (s ^ P[i]) | 1u << (12 + i);
    return true;
}

/* The same steps with the rows of P tested side by side. */
INLINED bool lanes_pattern(uint32_t s, uint32_t *e)
{
    if (lanes_half(s, e))
        return true;
    if (!lanes_half(check_sum(s), e))
        return false;
    *e = (*e & 4095) << 12 | *e >> 12;
    return true;
}

/* The pattern of each syndrome, or all ones. */
static uint32_t PATTERNS[4096];

INLINED bool table_pattern(uint32_t s, uint32_t *e)
{
    *e = PATTERNS[s];
    return *e != UINT32_MAX;
}

INLINED uint32_t golay_decode(bool (*pattern)(uint32_t, uint32_t *), uint32_t received, uint32_t *word, uint8_t *count,
                                    size_t *value)
{
    *value = 0;
    *word = 0;
    *count = 0;
    if (received >> 24)
        return 7;
    uint32_t e, s = (received & 4095) ^ check_sum(received >> 12);
    *word = received;
    if (s == 0)
        return 0;
    if (!pattern(s, &e)) {
        *count = 255;
        return 0;
    }
    *word = received ^ e;
    *count = (uint8_t)ones(e);
    return 0;
}

uint32_t plain_golay_decode(uint32_t received, uint32_t *word, uint8_t *count, size_t *value)
{
    return golay_decode(golay_pattern, received, word, count, value);
}

uint32_t lanes_golay_decode(uint32_t received, uint32_t *word, uint8_t *count, size_t *value)
{
    return golay_decode(lanes_pattern, received, word, count, value);
}

uint32_t table_golay_decode(uint32_t received, uint32_t *word, uint8_t *count, size_t *value)
{
    return golay_decode(table_pattern, received, word, count, value);
}

static const uint8_t COLUMNS[64] = {
    0x07, 0x0B, 0x0D, 0x0E, 0x13, 0x15, 0x16, 0x19, 0x1A, 0x1C, 0x23, 0x25, 0x26, 0x29, 0x2A, 0x2C, 0x31, 0x32, 0x34, 0x38, 0x43, 0x45,
    0x46, 0x49, 0x4A, 0x4C, 0x51, 0x52, 0x54, 0x58, 0x61, 0x62, 0x64, 0x68, 0x70, 0x83, 0x85, 0x86, 0x89, 0x8A, 0x8C, 0x91, 0x92, 0x94,
    0x98, 0xA1, 0xA2, 0xA4, 0xA8, 0xB0, 0xC1, 0xC2, 0xC4, 0xC8, 0xD0, 0xE0, 0x1F, 0x3E, 0x7C, 0xF8, 0xF1, 0xE3, 0xC7, 0x8F};

/* Byte t of entry b is column 8 t + b: bit b of each data byte is spread over a byte, and the bytes are added up. */
static const uint64_t SPREAD[8] = {0x1FA88C644A311A07, 0x3EB091684C321C0B, 0x7CC192705134230D, 0xF8C294835238250E,
                                   0xF1C4988554432613, 0xE3C8A18658452915, 0xC7D0A28961462A16, 0x8FE0A48A62492C19};

static inline uint8_t folded(uint64_t a)
{
    a ^= a >> 32;
    a ^= a >> 16;
    a ^= a >> 8;
    return (uint8_t)a;
}

static inline uint8_t spread_sum(uint64_t d)
{
    uint64_t a = 0;
    for (int t = 0; t < 8; t++)
        a ^= (d >> t & 0x0101010101010101) * 255 & SPREAD[t];
    return folded(a);
}

/* By diagonals of the table of columns, as the library does. */
static inline uint8_t diagonal_sum(uint64_t d)
{
    static const uint64_t DIAGONALS[8] = {0xFFC0B080504F201F, 0xFF6048402BA81385, 0xFF3025E7D61C0A03, 0xFF1BF3140966E760,
                                          0xFF0E08BE04D381D0, 0x0005046B023158B0, 0x00FE8219BD00B44C, 0x00815F00E0804C2A};
    uint64_t s = 0;
    for (int k = 7; k >= 0; k--)
        s = (s << 1 | s >> 63) ^ (d & DIAGONALS[k]);
    return folded(s);
}

/* By the columns of the first `width` data places. */
static inline uint8_t corrected(uint32_t width, uint8_t s, uint8_t *check, uint64_t *data)
{
    if (s == 0)
        return 0;
    if ((s & (s - 1)) == 0) {
        *check ^= s;
        return 1;
    }
    uint8_t r = 0;
    for (uint8_t i = 0; i < 64; i++)
        r += COLUMNS[i] == s ? (uint8_t)(i + 1) : (uint8_t)0;
    if (r == 0 || (width < 64 && r > width))
        return 255;
    *data ^= UINT64_C(1) << (r - 1);
    return 1;
}

uint8_t plain_hsiao_encode(uint64_t data)
{
    return spread_sum(data);
}

uint8_t plain_hsiao_decode(uint8_t *check, uint64_t *data)
{
    return corrected(64, *check ^ spread_sum(*data), check, data);
}

uint8_t diagonal_hsiao_decode(uint8_t *check, uint64_t *data)
{
    return corrected(64, *check ^ diagonal_sum(*data), check, data);
}

/* The column sums of each data byte, and one more than the data place of each column. */
static uint8_t SUMS[8][256], PLACE[256];

void prepare_tables(void)
{
    for (int t = 0; t < 8; t++)
        for (unsigned v = 0; v < 256; v++)
            SUMS[t][v] = spread_sum((uint64_t)v << 8 * t);
    for (int i = 0; i < 64; i++)
        PLACE[COLUMNS[i]] = (uint8_t)(i + 1);
    for (uint32_t s = 0; s < 4096; s++)
        if (!golay_pattern(s, &PATTERNS[s]))
            PATTERNS[s] = UINT32_MAX;
}

uint8_t table_hsiao_decode(uint8_t *check, uint64_t *data)
{
    uint8_t s = *check;
    for (int t = 0; t < 8; t++)
        s ^= SUMS[t][*data >> 8 * t & 255];
    if (s == 0)
        return 0;
    if ((s & (s - 1)) == 0) {
        *check ^= s;
        return 1;
    }
    if (PLACE[s] == 0)
        return 255;
    *data ^= UINT64_C(1) << (PLACE[s] - 1);
    return 1;
}

uint32_t plain_hsiao_message(uint8_t check, uint64_t data, uint64_t *message, size_t *value)
{
    *value = 0;
    *message = 0;
    if (check != spread_sum(data))
        return 10;
    *message = data;
    return 0;
}

/* 14, 15 or 0. */
static inline uint32_t width_cause(uint32_t width, uint8_t check, uint64_t data)
{
    switch (width) {
    case 16: return check >> 6 || data >> 16 ? 15 : 0;
    case 32: return check >> 7 || data >> 32 ? 15 : 0;
    case 64: return 0;
    default: return 14;
    }
}

uint32_t plain_width_encode(uint32_t width, uint64_t data, uint8_t *check, size_t *value)
{
    uint32_t cause = width_cause(width, 0, data);
    *value = 0;
    *check = cause ? 0 : diagonal_sum(data);
    return cause;
}

uint32_t plain_width_decode(uint32_t width, uint8_t check, uint64_t data, uint8_t *word_check, uint64_t *word_data, uint8_t *count,
                            size_t *value)
{
    uint32_t cause = width_cause(width, check, data);
    *value = 0;
    *word_check = 0;
    *word_data = 0;
    *count = 0;
    if (cause)
        return cause;
    *count = corrected(width, check ^ diagonal_sum(data), &check, &data);
    *word_check = check;
    *word_data = data;
    return 0;
}

uint32_t plain_width_message(uint32_t width, uint8_t check, uint64_t data, uint64_t *message, size_t *value)
{
    uint32_t cause = width_cause(width, check, data);
    *value = 0;
    *message = 0;
    if (cause)
        return cause;
    if (check != diagonal_sum(data))
        return 10;
    *message = data;
    return 0;
}
