/* How much stack each call of the library takes: in a thread of its own the stack is filled with a mark, the call is made, and
 * what lost the mark is counted, for three codes, of which the largest figure is taken. Prints a line for each call; exit status 1 where
 * one takes more than relaymarten.h states, or less than half of it. The statements are the second column of `calls`; bindings/check
 * compares them with the header. Link with -pthread -Wl,-z,now, so that no call of the C library is bound while it is measured. */
#define _GNU_SOURCE
#include "relaymarten.h"
#include <pthread.h>
#include <stdio.h>
#include <stdlib.h>
#include <string.h>

enum { STACK = 1 << 18, MARK = 0xA5, RED_ZONE = 128, N = RELAY_MAX_PLACES, K = RELAY_MAX_ROWS };

static uint32_t rows[K], words[RELAY_MAX_WORDS], out[RELAY_MAX_WORDS], work[RELAY_MAX_LEADERS];
static uint8_t counts[RELAY_MAX_WORDS], bits[RELAY_MAX_DEPTH * N], sheet[RELAY_MAX_SHEET], printed[RELAY_MAX_OUTPUT];
static size_t sheet_len, value;
static volatile uint32_t number;

static uint32_t n, k;

static void prepare_words(void)
{
    for (uint32_t i = 0; i < RELAY_MAX_WORDS; i++)
        words[i] = i * 0x2545F491u >> (32 - n);
}

/* A (32,20) code whose leaders weigh up to 12: the deepest recursion, and a second or so for each call that builds them. */
static void prepare_deepest(void)
{
    n = N;
    k = K;
    for (uint32_t i = 0; i < k; i++)
        rows[i] = 1u << i;
    prepare_words();
}

/* The extended Golay code: the minimum distance takes a walk over all codewords. */
static void prepare_walked(void)
{
    n = 24;
    k = 12;
    for (uint32_t i = 0; i < k; i++)
        rows[i] = 0xC75u << i | (uint32_t)(__builtin_popcount(0xC75u) & 1) << 23;
    prepare_words();
}

/* Rows of an extended BCH code: the lightest codeword takes the sums of up to six rows. */
static void prepare_summed(void)
{
    n = N;
    k = K;
    for (uint32_t i = 0; i < k; i++)
        rows[i] = 0x769u << (i < 5 ? i : i + 1) | 1u << 31;
    prepare_words();
}

static void put_words(uint8_t tag, const uint32_t *list, size_t length)
{
    sheet[sheet_len++] = tag;
    sheet[sheet_len++] = (uint8_t)(4 * length >> 8);
    sheet[sheet_len++] = (uint8_t)(4 * length);
    for (size_t i = 0; i < 4 * length; i++)
        sheet[sheet_len++] = (uint8_t)(list[i / 4] >> 8 * (i % 4));
}

/* All 512 words, within radius 0. */
static void prepare_sheet(void)
{
    const uint8_t front[] = {1, 0, 1, (uint8_t)n, 2, 0, 1, (uint8_t)k}, radius[] = {4, 0, 1, 0};
    memcpy(sheet, front, sizeof front);
    sheet_len = sizeof front;
    put_words(3, rows, k);
    memcpy(sheet + sheet_len, radius, sizeof radius);
    sheet_len += sizeof radius;
    put_words(5, words, RELAY_MAX_WORDS);
}

static void version(void) { number = relay_version() == RELAY_VERSION ? 0 : 99; }

static void describe(void)
{
    static uint32_t reduced[K], checks[RELAY_MAX_CHECKS], weights[RELAY_WEIGHTS], dmin, lightest;
    number = relay_describe(n, k, rows, k, reduced, checks, weights, &dmin, &lightest, &value);
}

static void leaders(void)
{
    static uint32_t checks[RELAY_MAX_CHECKS], tried;
    number = relay_leaders(n, k, rows, k, work, RELAY_MAX_LEADERS, checks, &tried, &value);
}

static void encode(void)
{
    static uint32_t messages[RELAY_MAX_WORDS];
    for (uint32_t i = 0; i < RELAY_MAX_WORDS; i++)
        messages[i] = i;
    number = relay_encode(n, k, rows, k, messages, RELAY_MAX_WORDS, out, RELAY_MAX_WORDS, &value);
}

static void message(void)
{
    static uint32_t codewords[RELAY_MAX_WORDS];
    number = relay_message(n, k, rows, k, codewords, RELAY_MAX_WORDS, out, RELAY_MAX_WORDS, &value);
}

static void decode(void)
{
    number = relay_decode(n, k, rows, k, 1, 0, words, RELAY_MAX_WORDS, out, RELAY_MAX_WORDS, counts, RELAY_MAX_WORDS,
                          work, RELAY_MAX_LEADERS, &value);
}

static void interleave(void)
{
    number = relay_interleave(n, k, rows, k, words, RELAY_MAX_DEPTH, bits, RELAY_MAX_DEPTH * n, &value);
}

static void deinterleave(void)
{
    number = relay_deinterleave(n, k, rows, k, RELAY_MAX_DEPTH, bits, RELAY_MAX_DEPTH * n, out, RELAY_MAX_DEPTH, &value);
}

static void decode_interleaved(void)
{
    number = relay_decode_interleaved(n, k, rows, k, 0, RELAY_MAX_DEPTH, bits, RELAY_MAX_DEPTH * n, out, RELAY_MAX_DEPTH, counts,
                                      RELAY_MAX_DEPTH, work, RELAY_MAX_LEADERS, &value);
}

static void golay_encode(void) { number = relay_golay_encode(0xABC, out, &value); }
static void golay_decode(void) { number = relay_golay_decode(0x700ABC, out, counts, &value); }
static void golay_message(void) { number = relay_golay_message(0, out, &value); }

static void hsiao_encode(void)
{
    counts[0] = relay_hsiao_encode(0x123456789ABCDEF0);
    number = 0;
}

static void hsiao_decode(void)
{
    static uint64_t data = 0x123456789ABCDEF0;
    number = relay_hsiao_decode(counts, &data) == RELAY_FAR;
}

static void hsiao_message(void)
{
    static uint64_t data;
    number = relay_hsiao_message(7, 1, &data, &value);
}

static void width_encode(void) { number = relay_hsiao_width_encode(32, 0x12345678, counts, &value); }

static void width_decode(void)
{
    static uint64_t data;
    number = relay_hsiao_width_decode(32, 0x64, 0x12345678, counts, &data, counts + 1, &value);
}

static void width_message(void)
{
    static uint64_t data;
    number = relay_hsiao_width_message(32, 7, 1, &data, &value);
}

static void run(void)
{
    number = relay_run(sheet, sheet_len, printed, sizeof printed) > 0 && memcmp(printed, "refused", 7) != 0 ? 0 : 99;
}

static const struct {
    const char *name;
    size_t stated; /* in kB of 1,000 bytes; 1 means less than 1 kB */
    void (*call)(void);
} calls[] = {
    {"relay_version", 1, version},
    {"relay_describe", 6, describe},
    {"relay_leaders", 3, leaders},
    {"relay_encode", 2, encode},
    {"relay_message", 3, message},
    {"relay_decode", 5, decode},
    {"relay_interleave", 2, interleave},
    {"relay_deinterleave", 2, deinterleave},
    {"relay_decode_interleaved", 4, decode_interleaved},
    {"relay_golay_encode", 1, golay_encode},
    {"relay_golay_decode", 1, golay_decode},
    {"relay_golay_message", 1, golay_message},
    {"relay_hsiao_encode", 1, hsiao_encode},
    {"relay_hsiao_decode", 1, hsiao_decode},
    {"relay_hsiao_message", 1, hsiao_message},
    {"relay_hsiao_width_encode", 1, width_encode},
    {"relay_hsiao_width_decode", 1, width_decode},
    {"relay_hsiao_width_message", 1, width_message},
    {"relay_run", 27, run},
};

static _Alignas(4096) uint8_t stack[STACK];
static size_t touched;

/* Marks the stack below its own frame, makes the call and counts. The marking and counting call nothing. */
static void *in_thread(void *call)
{
    uint8_t *frame = (uint8_t *)__builtin_frame_address(0) - RED_ZONE;
    for (volatile uint8_t *p = stack; p < frame; p++)
        *p = MARK;
    (*(void (**)(void))call)();
    volatile uint8_t *p = stack;
    while (p < frame && *p == MARK)
        p++;
    touched = (size_t)(frame + RED_ZONE - p);
    return NULL;
}

static size_t bytes_of(void (*call)(void))
{
    pthread_attr_t how;
    pthread_t thread;
    if (pthread_attr_init(&how) != 0 || pthread_attr_setstack(&how, stack, sizeof stack) != 0 ||
        pthread_create(&thread, &how, in_thread, &call) != 0 || pthread_join(thread, NULL) != 0) {
        puts("no thread could be made");
        exit(1);
    }
    pthread_attr_destroy(&how);
    return touched;
}

/* Of the call with the code prepared; 0 where it is refused. */
static size_t measured(void (*prepare)(void), void (*call)(void))
{
    prepare();
    prepare_sheet();
    size_t bytes = bytes_of(call);
    return number == 0 ? bytes : 0;
}

int main(void)
{
    void (*const prepared[])(void) = {prepare_deepest, prepare_walked, prepare_summed};
    int wrong = 0;
    for (size_t i = 0; i < sizeof calls / sizeof *calls; i++) {
        size_t most = 0, stated = calls[i].stated;
        int refused = 0;
        for (size_t j = 0; j < sizeof prepared / sizeof *prepared; j++) {
            size_t bytes = measured(prepared[j], calls[i].call);
            refused |= bytes == 0;
            most = bytes > most ? bytes : most;
        }
        int bad = refused || most > 1000 * stated || (stated > 1 && most < 500 * stated);
        printf("%s %zu bytes of stack%s\n", calls[i].name, most, refused ? ", REFUSED" : bad ? ", NOT AS STATED" : "");
        wrong |= bad;
    }
    return wrong;
}
