/* Interleaving, and the decode after sorting back. */
#include "plain.h"
#include <string.h>

/* Cause 16, and 17 for a list of so many bytes. */
static uint32_t length_cause(uint32_t n, size_t depth, size_t length)
{
    if (depth < 1 || depth > 16)
        return 16;
    return length == depth * n ? 0 : 17;
}

/* Causes 16 and 17 of received bits. */
static uint32_t bits_cause(uint32_t n, size_t depth, const uint8_t *bits, size_t length)
{
    uint32_t number = length_cause(n, depth, length);
    uint8_t all = 0;
    if (number)
        return number;
    for (size_t b = 0; b < length; b++)
        all |= bits[b];
    return all > 1 ? 17 : 0;
}

uint32_t plain_interleave(uint32_t n, uint32_t k, const uint32_t *rows, size_t rows_len, const uint32_t *words, size_t depth,
                          uint8_t *bits, size_t bits_len, size_t *value)
{
    uint32_t number = plain_accept(n, k, rows, rows_len, value);
    if (number || (number = length_cause(n, depth, bits_len)))
        return number;
    for (size_t i = 0; i < depth; i++)
        if (words[i] >> n) {
            *value = i;
            return 7;
        }
    if (ways.places)
        for (uint32_t j = 0; j < n; j++)
            for (size_t i = 0; i < depth; i++)
                bits[depth * j + i] = (uint8_t)(words[i] >> j & 1);
    else
        for (size_t i = 0; i < depth; i++)
            for (uint32_t j = 0; j < n; j++)
                bits[depth * j + i] = (uint8_t)(words[i] >> j & 1);
    return 0;
}

static void sort_back(uint32_t n, size_t depth, const uint8_t *bits, uint32_t *out)
{
    if (ways.places) {
        memset(out, 0, depth * sizeof *out);
        for (uint32_t j = 0; j < n; j++)
            for (size_t i = 0; i < depth; i++)
                out[i] |= (uint32_t)bits[depth * j + i] << j;
    } else
        for (size_t i = 0; i < depth; i++) {
            uint32_t w = 0;
            for (uint32_t j = 0; j < n; j++)
                w |= (uint32_t)bits[depth * j + i] << j;
            out[i] = w;
        }
}

uint32_t plain_deinterleave(uint32_t n, uint32_t k, const uint32_t *rows, size_t rows_len, size_t depth, const uint8_t *bits,
                            size_t bits_len, uint32_t *out, size_t out_len, size_t *value)
{
    uint32_t number = plain_accept(n, k, rows, rows_len, value);
    if (number || (number = bits_cause(n, depth, bits, bits_len)))
        return number;
    if (out_len < depth)
        return 8;
    sort_back(n, depth, bits, out);
    return 0;
}

/* Causes 1 to 5 are asked of a decode without words where the bits are refused, of the decode itself where they are not. */
uint32_t plain_decode_interleaved(uint32_t n, uint32_t k, const uint32_t *rows, size_t rows_len, uint32_t radius, size_t depth,
                                  const uint8_t *bits, size_t bits_len, uint32_t *out, size_t out_len, uint8_t *counts,
                                  size_t counts_len, uint32_t *work, size_t work_len, size_t *value)
{
    uint32_t words[16], refused = bits_cause(n, depth, bits, bits_len), d;
    if (refused) {
        uint32_t number = plain_decode(n, k, rows, rows_len, true, radius, rows, 0, out, 0, counts, 0, work, 0, value, false, &d);
        return number == 9 ? refused : number;
    }
    if (n > MAX_PLACES)
        return plain_accept(n, k, rows, rows_len, value);
    sort_back(n, depth, bits, words);
    return plain_decode(n, k, rows, rows_len, true, radius, words, depth, out, out_len, counts, counts_len, work, work_len, value,
                        false, &d);
}
