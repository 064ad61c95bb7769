/* A (6,3) code: what it is, its coset leaders, three messages sent, damaged, decoded and read back; three words of a (7,4) code
 * sent interleaved, with a burst; a (32,20) code, the longest; then the two fixed codes and a code sheet.
 * Built and run by bench/run, which compares what it prints with example.out. */
#include "relaymarten.h"
#include <inttypes.h>
#include <stdio.h>

static const uint32_t rows[3] = {0x31, 0x2A, 0x1C};

/* The n digits of a word, place 0 leftmost. */
static void print_word(uint32_t n, uint32_t w)
{
    for (uint32_t i = 0; i < n; i++)
        putchar('0' + (int)(w >> i & 1));
}

static void describe(void)
{
    uint32_t reduced[RELAY_MAX_ROWS], checks[RELAY_MAX_CHECKS], counts[RELAY_WEIGHTS], dmin, lightest;
    size_t value;
    if (relay_describe(6, 3, rows, 3, reduced, checks, counts, &dmin, &lightest, &value) != RELAY_DONE)
        return;
    printf("minimum distance %" PRIu32 ", lightest codeword ", dmin);
    print_word(6, lightest);
    printf(", reduced rows");
    for (int i = 0; i < 3; i++) {
        putchar(' ');
        print_word(6, reduced[i]);
    }
    printf(", check rows");
    for (int i = 0; i < 3; i++) {
        putchar(' ');
        print_word(6, checks[i]);
    }
    printf(", weights");
    for (int i = 0; i <= 6; i++)
        printf(" %" PRIu32, counts[i]);
    putchar('\n');
}

static void leaders(void)
{
    uint32_t list[8], checks[RELAY_MAX_CHECKS], tried;
    size_t value;
    if (relay_leaders(6, 3, rows, 3, list, 8, checks, &tried, &value) != RELAY_DONE)
        return;
    printf("leaders");
    for (int i = 0; i < 8; i++) {
        putchar(' ');
        print_word(6, list[i]);
    }
    printf(", %" PRIu32 " words tried\n", tried);
}

static void send(void)
{
    const uint32_t messages[3] = {1, 5, 7};
    uint32_t words[3], decoded[3], read[3], work[8];
    uint8_t counts[3];
    size_t value;
    if (relay_encode(6, 3, rows, 3, messages, 3, words, 3, &value) != RELAY_DONE)
        return;
    words[1] ^= 1u << 4; /* one place changed */
    words[2] ^= 0x24;    /* two */
    if (relay_decode(6, 3, rows, 3, 1, 1, words, 3, decoded, 3, counts, 3, work, 8, &value) != RELAY_DONE)
        return;
    for (int i = 0; i < 3; i++) {
        print_word(6, words[i]);
        printf(" gives ");
        print_word(6, decoded[i]);
        printf(counts[i] == RELAY_FAR ? " far\n" : " %d\n", counts[i]);
    }
    uint32_t number = relay_message(6, 3, rows, 3, decoded, 3, read, 3, &value);
    printf("read back: number %" PRIu32 ", value %zu: %s\n", number, value, relay_text(number));
    size_t answered = 0; /* the far word is left out */
    for (int i = 0; i < 3; i++)
        if (counts[i] != RELAY_FAR)
            decoded[answered++] = decoded[i];
    if (relay_message(6, 3, rows, 3, decoded, answered, read, 3, &value) == RELAY_DONE)
        for (size_t i = 0; i < answered; i++)
            printf("message %" PRIu32 "\n", read[i]);
}

static void interleaved(void)
{
    const uint32_t matrix[4] = {0x0B, 0x16, 0x27, 0x45}, words[3] = {0x1D, 0x45, 0x7F};
    uint32_t decoded[3], work[8];
    uint8_t bits[3 * 7], counts[3];
    size_t value;
    if (relay_interleave(7, 4, matrix, 4, words, 3, bits, sizeof bits, &value) != RELAY_DONE)
        return;
    printf("interleaved ");
    for (size_t b = 0; b < sizeof bits; b++)
        putchar('0' + bits[b]);
    for (int b = 10; b <= 12; b++) /* a burst of 3 * 1 bits */
        bits[b] ^= 1;
    if (relay_decode_interleaved(7, 4, matrix, 4, 1, 3, bits, sizeof bits, decoded, 3, counts, 3, work, 8, &value) != RELAY_DONE)
        return;
    printf(", bits 10 to 12 changed, gives");
    for (int i = 0; i < 3; i++) {
        putchar(' ');
        print_word(7, decoded[i]);
        printf(" %d", counts[i]);
    }
    putchar('\n');
}

/* Rows of a BCH code, and one of 32 ones: at 32 places every number is a word. */
static void longest(void)
{
    uint32_t matrix[RELAY_MAX_ROWS], received = 0x7FFFFFFF, decoded, message;
    static uint32_t work[RELAY_MAX_LEADERS];
    uint8_t count;
    size_t value;
    for (int i = 0; i < 19; i++)
        matrix[i] = 0x769u << i;
    matrix[19] = 0xFFFFFFFF;
    if (relay_decode(32, 20, matrix, 20, 1, 2, &received, 1, &decoded, 1, &count, 1, work, RELAY_MAX_LEADERS, &value) != RELAY_DONE
        || relay_message(32, 20, matrix, 20, &decoded, 1, &message, 1, &value) != RELAY_DONE)
        return;
    print_word(32, received);
    printf(" gives ");
    print_word(32, decoded);
    printf(" %d, message %05" PRIX32 "\n", count, message);
}

static void fixed_codes(void)
{
    uint32_t word, corrected;
    uint8_t count;
    size_t value;
    relay_golay_encode(3, &word, &value);
    relay_golay_decode(word ^ 0x20101, &corrected, &count, &value);
    printf("Golay %06" PRIX32 ", damaged %06" PRIX32 ", decoded %06" PRIX32 " %d\n", word, word ^ 0x20101, corrected, count);
    uint64_t data = 0x123456789ABCDEF0;
    uint8_t check = relay_hsiao_encode(data);
    uint64_t received = data ^ (UINT64_C(1) << 40);
    count = relay_hsiao_decode(&check, &received);
    printf("(72,64) %016" PRIX64 " %02X, count %d, %s\n", received, check, count, received == data ? "corrected" : "lost");
    uint64_t meter = 0xBEEF, mended;
    if (relay_hsiao_width_encode(16, meter, &check, &value) == RELAY_DONE
        && relay_hsiao_width_decode(16, check, meter ^ 0x8000, &check, &mended, &count, &value) == RELAY_DONE)
        printf("(22,16) %04" PRIX64 " %02X, count %d, %s\n", mended, check, count, mended == meter ? "corrected" : "lost");
    uint32_t number = relay_hsiao_width_encode(16, 0x10000, &check, &value);
    printf("10000 as 16 bits: number %" PRIu32 ", value %zu: %s\n", number, value, relay_text(number));
}

static void sheet(void)
{
    static const uint8_t bytes[] = {0x01, 0, 1, 6, 0x02, 0, 1, 3, 0x03, 0, 12, 0x31, 0, 0, 0, 0x2A, 0, 0,
                                    0,    0x1C, 0, 0, 0, 0x05, 0, 8, 0x23, 0, 0, 0, 0x1F, 0, 0, 0};
    static uint8_t out[RELAY_MAX_OUTPUT];
    size_t length = relay_run(bytes, sizeof bytes, out, sizeof out);
    fwrite(out, 1, length, stdout);
}

int main(void)
{
    if (relay_version() != RELAY_VERSION) {
        printf("the library has version %" PRIu32 ", the header %d\n", relay_version(), RELAY_VERSION);
        return 1;
    }
    describe();
    leaders();
    send();
    interleaved();
    longest();
    fixed_codes();
    sheet();
    return 0;
}
