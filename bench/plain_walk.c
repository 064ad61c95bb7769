/* All codewords of a matrix, one after the other in Gray order or in blocks; or sums of few rows alone. */
#include "plain.h"

enum { BLOCK_ROWS = 8, BLOCK = 256 };

void gray_walk(uint32_t k, const uint32_t *rows, uint32_t counts[33], uint32_t *dmin, uint32_t *lightest)
{
    uint32_t w = 0, best = 0;
    unsigned d = 33;
    counts[0] = 1;
    for (uint32_t u = 1; u < 1u << k; u++) {
        w ^= rows[__builtin_ctz(u)];
        unsigned x = ones(w);
        counts[x]++;
        if (x < d || (x == d && w < best)) {
            d = x;
            best = w;
        }
    }
    *dmin = d;
    *lightest = best;
}

uint32_t gray_distance(uint32_t k, const uint32_t *rows)
{
    uint32_t w = 0, d = 33;
    for (uint32_t u = 1; u < 1u << k; u++) {
        w ^= rows[__builtin_ctz(u)];
        unsigned x = ones(w);
        if (x < d)
            d = x;
    }
    return d;
}

/* The codewords of the first rows; answers how many rows. */
static uint32_t fill_block(uint32_t k, const uint32_t *rows, uint32_t *block)
{
    uint32_t b = k < BLOCK_ROWS ? k : BLOCK_ROWS;
    block[0] = 0;
    for (uint32_t j = 1; j < 1u << b; j++)
        block[j] = block[j & (j - 1)] ^ rows[__builtin_ctz(j)];
    return b;
}

/* The weights of a block with base added, and each of them counted. */
static inline void count_block(const uint32_t *block, uint32_t size, uint32_t base, uint32_t *weights, uint32_t counts[33])
{
    for (uint32_t j = 0; j < size; j++)
        weights[j] = ones(block[j] ^ base);
    for (uint32_t j = 0; j < size; j++)
        counts[weights[j]]++;
}

/* The smallest word of this weight in a block with base added, or best. */
static uint32_t smallest(const uint32_t *block, const uint32_t *weights, uint32_t size, uint32_t base, uint32_t weight, uint32_t best)
{
    for (uint32_t j = 0; j < size; j++)
        if (weights[j] == weight && (block[j] ^ base) < best)
            best = block[j] ^ base;
    return best;
}

void block_walk(uint32_t k, const uint32_t *rows, uint32_t counts[33], uint32_t *dmin, uint32_t *lightest)
{
    uint32_t block[BLOCK], weights[BLOCK], base = 0, b = fill_block(k, rows, block), size = 1u << b, met = 0;
    *dmin = 33;
    for (uint32_t h = 0; h < 1u << (k - b); h++) {
        if (h)
            base ^= rows[b + (uint32_t)__builtin_ctz(h)];
        count_block(block, size, base, weights, counts);
        uint32_t least = 1;
        while (least < *dmin && !counts[least])
            least++;
        if (least < *dmin) {
            *dmin = least;
            *lightest = UINT32_MAX;
            met = 0;
        }
        if (counts[least] != met) {
            *lightest = smallest(block, weights, size, base, least, *lightest);
            met = counts[least];
        }
    }
}

void block_counts(uint32_t k, const uint32_t *rows, uint32_t counts[33])
{
    uint32_t block[BLOCK], weights[BLOCK], base = 0, b = fill_block(k, rows, block), size = 1u << b;
    for (uint32_t h = 0; h < 1u << (k - b); h++) {
        if (h)
            base ^= rows[b + (uint32_t)__builtin_ctz(h)];
        count_block(block, size, base, weights, counts);
    }
}

/* The least weight in a block with base added, or d. */
static int block_least(const uint32_t *block, uint32_t size, uint32_t base, int d)
{
    for (uint32_t j = 0; j < size; j++) {
        int x = (int)ones(block[j] ^ base);
        d = x < d ? x : d;
    }
    return d;
}

uint32_t block_distance(uint32_t k, const uint32_t *rows)
{
    uint32_t block[BLOCK], base = 0, b = fill_block(k, rows, block);
    int d = block_least(block + 1, (1u << b) - 1, 0, 33);
    for (uint32_t h = 1; h < 1u << (k - b); h++) {
        base ^= rows[b + (uint32_t)__builtin_ctz(h)];
        d = block_least(block, 1u << b, base, d);
    }
    return (uint32_t)d;
}

/* The least of d and of the weights of all sums of t of the first m rows, each with base added. */
static uint32_t least_sum(const uint32_t *rows, uint32_t m, uint32_t t, uint32_t base, uint32_t d)
{
    if (t == 1) {
        for (uint32_t p = 0; p < m; p++) {
            uint32_t x = ones(rows[p] ^ base);
            d = x < d ? x : d;
        }
        return d;
    }
    for (uint32_t p = t - 1; p < m; p++)
        d = least_sum(rows, p, t - 1, base ^ rows[p], d);
    return d;
}

uint32_t rising_distance(uint32_t k, const uint32_t *rows)
{
    uint32_t d = 33;
    for (uint32_t t = 1; t <= k && t < d; t++) {
        if (t > 3 && k <= 12)
            return block_distance(k, rows);
        d = least_sum(rows, k, t, 0, d);
    }
    return d;
}
