/* Plain C that does what the proved library does, to compare with; gcc -O3. */
#ifndef PLAIN_H
#define PLAIN_H

#include <stdbool.h>
#include <stddef.h>
#include <stdint.h>

/* The limits of a matrix. */
enum { MAX_PLACES = 32, MAX_ROWS = 20, MAX_CHECKS = 12 };

/* The number of ones: written inline, or gcc's own, which is a library call without -mpopcnt. */
static inline unsigned ones(uint32_t x)
{
#ifdef INLINE_COUNT
    x -= x >> 1 & 0x55555555u;
    x = (x & 0x33333333u) + (x >> 2 & 0x33333333u);
    x = (x + (x >> 4)) & 0x0F0F0F0Fu;
    return x * 0x01010101u >> 24;
#else
    return (unsigned)__builtin_popcount(x);
#endif
}

/* How the plain side works; what is false is done in the plainest way. */
typedef struct {
    bool blocks; /* codewords are walked in blocks, not in Gray order */
    bool dual;   /* the weights by way of the check rows, not by a walk over all codewords */
    bool rows;   /* the minimum distance alone by rising number of reduced rows, not by a walk over all codewords */
    bool loops;  /* the leaders' last two ones are placed in loops, not by recursion */
    bool batch;  /* syndromes by parities one check row after the other over all words, not word by word */
    bool tables; /* syndromes by tables of eight places, not by a parity for each check row */
    bool syndromes; /* leaders are made from leaders, not found by trying words */
    bool places; /* interleaved bits place by place, not word by word */
} Ways;

extern Ways ways;

void gray_walk(uint32_t k, const uint32_t *rows, uint32_t counts[33], uint32_t *dmin, uint32_t *lightest);
void block_walk(uint32_t k, const uint32_t *rows, uint32_t counts[33], uint32_t *dmin, uint32_t *lightest);
/* Counts the sums of the rows by weight, in blocks. */
void block_counts(uint32_t k, const uint32_t *rows, uint32_t counts[33]);
/* Of reduced rows and check rows. */
void by_dual(uint32_t n, uint32_t k, const uint32_t *reduced, const uint32_t *checks, uint32_t counts[33], uint32_t *dmin,
             uint32_t *lightest);
uint32_t gray_distance(uint32_t k, const uint32_t *rows);
uint32_t block_distance(uint32_t k, const uint32_t *rows);
/* Of reduced rows. */
uint32_t rising_distance(uint32_t k, const uint32_t *rows);

/* Causes 1 to 4. */
uint32_t plain_accept(uint32_t n, uint32_t k, const uint32_t *rows, size_t rows_len, size_t *value);
uint32_t plain_describe(uint32_t n, uint32_t k, const uint32_t *rows, size_t rows_len, uint32_t reduced[MAX_ROWS],
                        uint32_t checks[MAX_CHECKS], uint32_t counts[33], uint32_t *dmin, uint32_t *lightest, size_t *value);
uint32_t plain_leaders(uint32_t n, uint32_t k, const uint32_t *rows, size_t rows_len, uint32_t *list, size_t list_len,
                       uint32_t checks[MAX_CHECKS], uint32_t *tried, size_t *value);
uint32_t plain_encode(uint32_t n, uint32_t k, const uint32_t *rows, size_t rows_len, const uint32_t *messages, size_t m,
                      uint32_t *out, size_t out_len, size_t *value);
uint32_t plain_message(uint32_t n, uint32_t k, const uint32_t *rows, size_t rows_len, const uint32_t *words, size_t m,
                       uint32_t *out, size_t out_len, size_t *value);
/* *d becomes the minimum distance where `measured` asks for it. */
uint32_t plain_decode(uint32_t n, uint32_t k, const uint32_t *rows, size_t rows_len, bool within, uint32_t radius,
                      const uint32_t *words, size_t m, uint32_t *out, size_t out_len, uint8_t *counts, size_t counts_len,
                      uint32_t *work, size_t work_len, size_t *value, bool measured, uint32_t *d);

uint32_t plain_interleave(uint32_t n, uint32_t k, const uint32_t *rows, size_t rows_len, const uint32_t *words, size_t depth,
                          uint8_t *bits, size_t bits_len, size_t *value);
uint32_t plain_deinterleave(uint32_t n, uint32_t k, const uint32_t *rows, size_t rows_len, size_t depth, const uint8_t *bits,
                            size_t bits_len, uint32_t *out, size_t out_len, size_t *value);
uint32_t plain_decode_interleaved(uint32_t n, uint32_t k, const uint32_t *rows, size_t rows_len, uint32_t radius, size_t depth,
                                  const uint8_t *bits, size_t bits_len, uint32_t *out, size_t out_len, uint8_t *counts,
                                  size_t counts_len, uint32_t *work, size_t work_len, size_t *value);

/* Fills the tables of the fixed codes; the table_ functions ask for it. */
void prepare_tables(void);

uint32_t plain_golay_encode(uint32_t message, uint32_t *word, size_t *value);
uint32_t plain_golay_decode(uint32_t received, uint32_t *word, uint8_t *count, size_t *value);
uint32_t lanes_golay_decode(uint32_t received, uint32_t *word, uint8_t *count, size_t *value);
uint32_t table_golay_decode(uint32_t received, uint32_t *word, uint8_t *count, size_t *value);
uint32_t plain_golay_message(uint32_t codeword, uint32_t *message, size_t *value);

uint8_t plain_hsiao_encode(uint64_t data);
uint8_t plain_hsiao_decode(uint8_t *check, uint64_t *data);
uint8_t diagonal_hsiao_decode(uint8_t *check, uint64_t *data);
uint8_t table_hsiao_decode(uint8_t *check, uint64_t *data);
uint32_t plain_hsiao_message(uint8_t check, uint64_t data, uint64_t *message, size_t *value);
uint32_t plain_width_encode(uint32_t width, uint64_t data, uint8_t *check, size_t *value);
uint32_t plain_width_decode(uint32_t width, uint8_t check, uint64_t data, uint8_t *word_check, uint64_t *word_data, uint8_t *count,
                            size_t *value);
uint32_t plain_width_message(uint32_t width, uint8_t check, uint64_t data, uint64_t *message, size_t *value);

size_t plain_run(const uint8_t *sheet, size_t sheet_len, uint8_t *out, size_t out_len);

#endif
