/* Relaymarten: proved encoding and decoding of binary linear block codes, for C and C++.
 *
 * Build:  bindings/build               gives target/staticlib/librelaymarten.a
 * Link:   cc -I bindings program.c target/staticlib/librelaymarten.a
 *
 * A word of n places is the number whose bit i is place i. A generator matrix is a list of k rows, each a word of n places; message
 * place i selects row i. n is 2 to 32, k is 1 to 20, n - k is 1 to 12; a batch has at most 512 words.
 *
 * What a caller keeps to; the proofs rest on it, and a call cannot test it. A list passes as pointer and length, in entries.
 *  - No pointer is null, also where a length is 0.
 *  - Each pointer is aligned for its type, and valid for the whole length: to be read, and to be written where it is not const. An
 *    array parameter has the size that stands in its brackets, or more.
 *  - What a call writes overlaps nothing else that the call is given, and no other thread reads or writes it during the call. Lists
 *    that are only read may overlap, and be shared.
 * Any number is allowed: what is out of range is refused. Lists need not be set to 0 before a call.
 *
 * What a call keeps to. The calls are reentrant: the library has no writable data and keeps nothing from one call to the next, so
 * that several threads may call at once, each with its own lists. No call allocates, locks, waits or reads or writes a file; of
 * the C library memcpy and memset are used. Every call ends. Each states how much stack it takes beside the caller's lists, as
 * bindings/stack.c measures it.
 */
#ifndef RELAYMARTEN_H
#define RELAYMARTEN_H

#include <stddef.h>
#include <stdint.h>

#ifdef __cplusplus
extern "C" {
#endif

/* The version of this header. */
#define RELAY_VERSION_MAJOR 0
#define RELAY_VERSION_MINOR 9
#define RELAY_VERSION_PATCH 0
#define RELAY_VERSION (10000 * RELAY_VERSION_MAJOR + 100 * RELAY_VERSION_MINOR + RELAY_VERSION_PATCH)

/* The version of the library, to be compared with RELAY_VERSION. Stack: less than 1 kB. */
uint32_t relay_version(void);

/* Sizes. An array of the caller that has them is large enough for every call. */
enum {
    RELAY_MAX_PLACES = 32,    /* places of a word, n */
    RELAY_MAX_ROWS = 20,      /* rows of a matrix, k; entries of `reduced` */
    RELAY_MAX_CHECKS = 12,    /* check rows, n - k; entries of `checks` */
    RELAY_WEIGHTS = 33,       /* entries of `weight_counts`: weights 0 to 32 */
    RELAY_MAX_WORDS = 512,    /* words of a batch */
    RELAY_MAX_DEPTH = 16,     /* words that are sent interleaved */
    RELAY_MAX_LEADERS = 4096, /* entries of the working list, 2^(n - k) */
    RELAY_MAX_SHEET = 4096,   /* bytes of a code sheet */
    RELAY_MAX_OUTPUT = 20480, /* bytes that relay_run asks for */
    RELAY_FAR = 255           /* the count of a word that is far */
};

/* Numbers. A call that may refuse returns 0, or the number of the first cause that refuses it, and writes at *value the value
 * beside it: the first such row or word, from 0, where the cause is about one, else 0. A call states its causes; they are tested
 * in rising order, but 14 and 15 before all others, and 16 and 17 after 5. A refused call on lists leaves every list as it was.
 * At n = 32 every number is a word: there is no 3 then, and 7 only for messages. Later versions may have more numbers; 11 stays
 * unused. docs/REFUSALS.md says of each what to do. */
enum {
    RELAY_DONE = 0,
    RELAY_OUT_OF_RANGE = 1,     /* n, k or n - k is out of range */
    RELAY_ROW_COUNT = 2,        /* the matrix is not exactly k rows long */
    RELAY_ROW_OUTSIDE = 3,      /* a row has a one at place n or beyond; *value: the first such row */
    RELAY_DEPENDENT = 4,        /* the rows are dependent; *value: the first row that is a sum of earlier rows */
    RELAY_RADIUS_TOO_LARGE = 5, /* 2 r + 1 is above the minimum distance */
    RELAY_TOO_MANY_WORDS = 6,   /* more than RELAY_MAX_WORDS words */
    RELAY_WORD_OUTSIDE = 7,     /* a message or word has a one outside its places; *value: the first such word */
    RELAY_SHORT_OUTPUT = 8,     /* an output list is shorter than the words */
    RELAY_SHORT_WORK = 9,       /* the working list is shorter than 2^(n - k) */
    RELAY_NO_CODEWORD = 10,     /* a word that is to be read back is no codeword; *value: the first such word */
    RELAY_SHEET_LAYOUT = 12,    /* of relay_run alone: the sheet is cut, too long, or a field has a wrong length; value: the byte */
    RELAY_SHEET_TAG = 13,       /* of relay_run alone: a tag is unknown, does not rise or is missing; value: the byte */
    RELAY_NO_WIDTH = 14,        /* the width is none of 16, 32 and 64 */
    RELAY_BEYOND_WIDTH = 15,    /* the data or the check bits go beyond those of the width */
    RELAY_NO_DEPTH = 16,        /* the depth is not 1 to RELAY_MAX_DEPTH */
    RELAY_NO_BITS = 17          /* the list of bits is not depth * n long or, when received, has a byte above 1 */
};

/* What the code of a matrix is. Causes 1 to 4.
 * Written: the k reduced rows, the n - k parity-check rows and how many codewords there are of each weight 0 to n, each list 0
 * after these; the minimum distance; and the lightest codeword, the smallest number among the nonzero codewords of that weight,
 * which is the same for every matrix of the code. On a refusal all of them become 0.
 * Time: 0.3 us with a (7,4) code, 5 us with random (23,12) rows, 6 to 12 us with random (28,16) or (32,20) rows, more where the minimum
 * distance is large: 69 us with (32,20) rows of minimum distance 6, the slowest found (AMD EPYC, 2.6 GHz).
 * Stack: about 6 kB. */
uint32_t relay_describe(uint32_t n, uint32_t k, const uint32_t *rows, size_t rows_len,
                        uint32_t reduced[RELAY_MAX_ROWS], uint32_t checks[RELAY_MAX_CHECKS], uint32_t weight_counts[RELAY_WEIGHTS],
                        uint32_t *dmin, uint32_t *lightest, size_t *value);

/* The coset leaders of a matrix. Causes 1 to 4 and 9, `leaders` being the working list.
 * Written: entry s of `leaders` becomes the leader of syndrome s, the lightest word that has it, of several the smallest number;
 * later slots keep their values. `checks` gives the n - k parity-check rows, and 0 after them: bit j of a word's syndrome is the
 * parity of what the word and row j have in common. *tried becomes the number of words tried: they are tried by rising weight, of
 * equal weight by rising number, until every syndrome has its leader, so it is the place in this order of the leader that comes
 * last, the zero word's being 1. On a refusal `leaders` is as it was, and `checks` and *tried become 0.
 * Time: that of relay_decode with no words.
 * Stack: about 3 kB. */
uint32_t relay_leaders(uint32_t n, uint32_t k, const uint32_t *rows, size_t rows_len,
                       uint32_t *leaders, size_t leaders_len, uint32_t checks[RELAY_MAX_CHECKS],
                       uint32_t *tried, size_t *value);

/* The codewords of messages of k places. Causes 1 to 4 and 6 to 8.
 * Written: slot i of `out` becomes the codeword of message i; later slots keep their values.
 * Stack: about 2 kB. */
uint32_t relay_encode(uint32_t n, uint32_t k, const uint32_t *rows, size_t rows_len,
                      const uint32_t *messages, size_t messages_len,
                      uint32_t *out, size_t out_len, size_t *value);

/* The messages of codewords. Causes 1 to 4, 6 to 8 and 10. One word that is no codeword refuses the whole list under 10: after
 * relay_decode within a radius, leave out the words whose count is RELAY_FAR first.
 * Written: slot i of `out` becomes the message of codeword i; later slots keep their values.
 * Stack: about 3 kB. */
uint32_t relay_message(uint32_t n, uint32_t k, const uint32_t *rows, size_t rows_len,
                       const uint32_t *words, size_t words_len,
                       uint32_t *out, size_t out_len, size_t *value);

/* Decodes received words: as the nearest codewords where `within` is 0 (the radius is not looked at); where it is anything else,
 * as the codewords at a distance of at most `radius`. Causes 1 to 4, 5 where `within` is not 0, and 6 to 9; cause 8 asks both
 * output lists. The call either is refused, with every list as it was, or succeeds.
 * Written: slot i of `out` becomes the codeword of word i and slot i of `counts` its distance; a far word leaves the received
 * word, which is no answer, and RELAY_FAR. The first 2^(n - k) entries of `work` become the coset leaders by syndrome. Later
 * slots keep their values.
 * Time: most of it goes into the leaders, which are built in each call, and depends on the matrix; within a radius the minimum
 * distance is looked for besides, which costs little; so do more words. 512 words took 1.5 us with a (7,4) code, 40 to 80 us with random
 * (28,16) or (32,20) rows, in either reading, and 0.6 to 0.8 s with (32,20) rows that leave twelve places 0 in every codeword, the
 * slowest found (AMD EPYC, 2.6 GHz).
 * Stack: about 5 kB. */
uint32_t relay_decode(uint32_t n, uint32_t k, const uint32_t *rows, size_t rows_len,
                      uint32_t within, uint32_t radius,
                      const uint32_t *words, size_t words_len,
                      uint32_t *out, size_t out_len, uint8_t *counts, size_t counts_len,
                      uint32_t *work, size_t work_len, size_t *value);

/* Interleaves words of n places, one byte a bit: place j of word i becomes bit number L * j + i, where the depth L is the number of
 * words. Neighbouring bits belong to different words, so that a burst changes few places of each. Causes 1 to 4, 16, 17 for a list
 * `bits` of another length than L * n, and 7. Words that are no codewords are sent too; what `bits` held is not looked at.
 * Written: every byte of `bits`, as 0 or 1.
 * Stack: about 2 kB. */
uint32_t relay_interleave(uint32_t n, uint32_t k, const uint32_t *rows, size_t rows_len,
                          const uint32_t *words, size_t words_len,
                          uint8_t *bits, size_t bits_len, size_t *value);

/* Deinterleaves: sorts received bits back into as many words as the depth says. Causes 1 to 4, 16, 17 for a list of another length
 * than depth * n or with a byte above 1, and 8.
 * Written: slot i of `out` becomes word i, its place j being bit number depth * j + i; later slots keep their values.
 * Stack: about 2 kB. */
uint32_t relay_deinterleave(uint32_t n, uint32_t k, const uint32_t *rows, size_t rows_len,
                            size_t depth, const uint8_t *bits, size_t bits_len,
                            uint32_t *out, size_t out_len, size_t *value);

/* Deinterleaves received bits, as relay_deinterleave, and decodes the words within `radius`, as relay_decode. Causes 1 to 5, 16, 17,
 * 8 and 9; 6 and 7 never arise. The call either is refused, with every list as it was, or succeeds.
 * Written: the three lists, as by relay_decode of these words. Where codewords were sent and the changed bits fit in depth * radius
 * consecutive places of the list, wherever these begin, every word comes back.
 * Time: as relay_decode.
 * Stack: about 4 kB. */
uint32_t relay_decode_interleaved(uint32_t n, uint32_t k, const uint32_t *rows, size_t rows_len,
                                  uint32_t radius, size_t depth, const uint8_t *bits, size_t bits_len,
                                  uint32_t *out, size_t out_len, uint8_t *counts, size_t counts_len,
                                  uint32_t *work, size_t work_len, size_t *value);

/* The extended Golay code (24,12): places 0 to 11 are checks, 12 to 23 the message. A refusal writes 0 everywhere, *value included.
 * Encode: cause 7, a message with a one past place 11. Stack: less than 1 kB. */
uint32_t relay_golay_encode(uint32_t message, uint32_t *word, size_t *value);

/* Decode at radius 3: cause 7, a word with a one past place 23. A far word is written unchanged, which is no answer, with
 * RELAY_FAR.
 * Stack: less than 1 kB. */
uint32_t relay_golay_decode(uint32_t received, uint32_t *word, uint8_t *count, size_t *value);

/* Message: cause 7, and 10 for a word that is no codeword. Stack: less than 1 kB. */
uint32_t relay_golay_message(uint32_t codeword, uint32_t *message, size_t *value);

/* The (72,64) code: a word is a check byte and 64 data bits. Encode returns the check byte; no data is refused.
 * Stack: less than 1 kB. */
uint8_t relay_hsiao_encode(uint64_t data);

/* Decode at radius 1, in place: the word becomes the codeword and the count is returned; a far word stays as it is, which is no
 * answer, with RELAY_FAR. No word is refused. Stack: less than 1 kB. */
uint8_t relay_hsiao_decode(uint8_t *check, uint64_t *data);

/* Message: writes the data of a codeword; cause 10 for any other word, with 0 as its data and *value. Stack: less than 1 kB. */
uint32_t relay_hsiao_message(uint8_t check, uint64_t data, uint64_t *message, size_t *value);

/* The codes of 16, 32 and 64 data bits, (22,16), (39,32) and (72,64), by this number, the width: a word is 6, 7 or 8 check bits and
 * the data bits. With width 64 the answers are those of the three calls above. A refusal writes 0 everywhere, *value included.
 * Encode: causes 14 and 15. Stack: less than 1 kB. */
uint32_t relay_hsiao_width_encode(uint32_t width, uint64_t data, uint8_t *check, size_t *value);

/* Decode at radius 1: causes 14 and 15. A far word is written unchanged, which is no answer, with RELAY_FAR.
 * Stack: less than 1 kB. */
uint32_t relay_hsiao_width_decode(uint32_t width, uint8_t check, uint64_t data,
                                  uint8_t *word_check, uint64_t *word_data, uint8_t *count, size_t *value);

/* Message: writes the data of a codeword; causes 14, 15, and 10 for a word that is no codeword. Stack: less than 1 kB. */
uint32_t relay_hsiao_width_message(uint32_t width, uint8_t check, uint64_t data, uint64_t *message, size_t *value);

/* The run over a code sheet (docs/SHEET.md): writes the lines that the program decode_sheet prints, and returns how many bytes they
 * are; the last is "clean C mended M far F places P", how many words ended so and the sum of the counts of the mended ones. A refusal,
 * causes 1 to 7, 12 and 13, is the one line "refused NUMBER VALUE"; 12 and 13 are tested first. `out` has RELAY_MAX_OUTPUT bytes or
 * more; a shorter list is left as it was, and 0 returned. Slots past the output keep their values.
 * Time: as relay_decode. Stack: about 27 kB. */
size_t relay_run(const uint8_t *sheet, size_t sheet_len, uint8_t *out, size_t out_len);

#ifdef __cplusplus
}
#endif

/* What a number means, in the words of docs/REFUSALS.md. Never null. */
static inline const char *relay_text(uint32_t number)
{
    switch (number) {
    case RELAY_DONE: return "done";
    case RELAY_OUT_OF_RANGE: return "n, k or n - k is out of range: n is 2 to 32, k is 1 to 20, n - k is 1 to 12";
    case RELAY_ROW_COUNT: return "the matrix has not exactly k rows";
    case RELAY_ROW_OUTSIDE: return "a row has a one at place n or beyond";
    case RELAY_DEPENDENT: return "a row is a sum of earlier rows (a zero row is the empty sum)";
    case RELAY_RADIUS_TOO_LARGE: return "the radius r is too large: 2 r + 1 is above the minimum distance";
    case RELAY_TOO_MANY_WORDS: return "there are more than 512 words";
    case RELAY_WORD_OUTSIDE: return "a word has a one outside its places (n for a word, k for a message)";
    case RELAY_SHORT_OUTPUT: return "an output list is shorter than the words";
    case RELAY_SHORT_WORK: return "the working list is shorter than 2^(n - k)";
    case RELAY_NO_CODEWORD: return "a word is to be read back and is no codeword";
    case RELAY_SHEET_LAYOUT: return "the sheet is cut or longer than 4,096 bytes, or a field has a wrong length";
    case RELAY_SHEET_TAG: return "a tag is unknown or does not rise, or one is missing at the end";
    case RELAY_NO_WIDTH: return "the width is none of 16, 32 and 64";
    case RELAY_BEYOND_WIDTH: return "the data or check bits go beyond those of the width";
    case RELAY_NO_DEPTH: return "the depth is out of range: it is 1 to 16";
    case RELAY_NO_BITS: return "the bits are not depth times n bytes or, when received, have one above 1";
    default: return "a number that this version does not know";
    }
}

#endif
