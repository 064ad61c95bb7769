/* The weights of a code by way of its check rows, and its smallest lightest codeword by way of its reduced rows. */
#include "plain.h"

/* How many codewords of n places there are of each weight, by the MacWilliams identity: 2^r times the number of weight j is the coefficient
 * of x^j in the sum over i of dual[i] (1 - x)^i (1 + x)^(n - i), where dual[i] counts the sums of the r check rows that weigh i. The sum is
 * made from i = n down: times 1 - x, and dual[i] times the next power of 1 + x. */
static void by_identity(uint32_t n, uint32_t r, const uint32_t dual[33], uint32_t counts[33])
{
    int64_t sum[34] = {0}, power[34] = {1};
    for (uint32_t s = 0; s <= n; s++) {
        int64_t times = dual[n - s];
        for (uint32_t j = s; j > 0; j--)
            sum[j] += times * power[j] - sum[j - 1];
        sum[0] += times;
        for (uint32_t j = s + 1; j > 0; j--)
            power[j] += power[j - 1];
    }
    for (uint32_t j = 0; j <= n; j++)
        counts[j] = (uint32_t)(sum[j] >> r);
}

/* The smallest of best and of the sums of t of the first m rows, each with base added, that weigh w. */
static uint32_t smallest_sum(const uint32_t *rows, uint32_t m, uint32_t t, uint32_t base, uint32_t w, uint32_t best)
{
    if (t == 1) {
        for (uint32_t p = 0; p < m; p++) {
            uint32_t x = rows[p] ^ base;
            if (x < best && ones(x) == w)
                best = x;
        }
        return best;
    }
    for (uint32_t p = t - 1; p < m; p++)
        best = smallest_sum(rows, p, t - 1, base ^ rows[p], w, best);
    return best;
}

void by_dual(uint32_t n, uint32_t k, const uint32_t *reduced, const uint32_t *checks, uint32_t counts[33], uint32_t *dmin,
             uint32_t *lightest)
{
    uint32_t dual[33] = {0}, least = 1, best = UINT32_MAX;
    block_counts(n - k, checks, dual);
    by_identity(n, n - k, dual, counts);
    while (!counts[least])
        least++;
    /* A sum of t reduced rows weighs at least t. */
    for (uint32_t t = 1; t <= k && t <= least; t++)
        best = smallest_sum(reduced, k, t, 0, least, best);
    *dmin = least;
    *lightest = best;
}
