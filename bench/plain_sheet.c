/* The run over a code sheet. */
#include "plain.h"
#include <string.h>

typedef struct {
    uint8_t *out;
    size_t at;
} Printer;

static void number(Printer *p, size_t x, char end)
{
    char digits[24];
    int n = 0;
    do
        digits[n++] = (char)('0' + x % 10);
    while (x /= 10);
    while (n)
        p->out[p->at++] = (uint8_t)digits[--n];
    p->out[p->at++] = (uint8_t)end;
}

static size_t refused(Printer *p, uint32_t cause, size_t value)
{
    memcpy(p->out, "refused ", 8);
    p->at = 8;
    number(p, cause, ' ');
    number(p, value, '\n');
    return p->at;
}

static uint32_t word(const uint8_t *b)
{
    return (uint32_t)b[0] | (uint32_t)b[1] << 8 | (uint32_t)b[2] << 16 | (uint32_t)b[3] << 24;
}

/* A sheet that was read; bit t of `have` tells that tag t was there. */
typedef struct {
    unsigned have, n, k, radius, row_count, word_count;
    uint32_t rows[1024], words[1024];
} Sheet;

static unsigned load(const uint8_t *content, unsigned size, uint32_t *list)
{
    for (unsigned i = 0; i < size / 4; i++)
        list[i] = word(content + 4 * i);
    return size / 4;
}

static void take(Sheet *s, unsigned tag, const uint8_t *content, unsigned size)
{
    s->have |= 1u << tag;
    switch (tag) {
    case 1: s->n = *content; break;
    case 2: s->k = *content; break;
    case 3: s->row_count = load(content, size, s->rows); break;
    case 4: s->radius = *content; break;
    default: s->word_count = load(content, size, s->words);
    }
}

/* 0, or cause 12 or 13 with its position. */
static uint32_t read_sheet(const uint8_t *sheet, size_t length, Sheet *s, size_t *position)
{
    unsigned last = 0;
    size_t at = 0;
    *position = 4096;
    if (length > 4096)
        return 12;
    while (at < length) {
        *position = at;
        if (length - at < 3)
            return 12;
        unsigned tag = sheet[at], size = sheet[at + 1] * 256u + sheet[at + 2];
        if (tag < 1 || tag > 5 || tag <= last)
            return 13;
        if (size > length - at - 3 || (tag == 3 || tag == 5 ? size % 4 != 0 : size != 1))
            return 12;
        take(s, tag, sheet + at + 3, size);
        last = tag;
        at += 3 + size;
    }
    *position = length;
    return (s->have & 0x2E) == 0x2E ? 0 : 13;
}

static void print_word(Printer *p, unsigned n, uint32_t codeword, uint8_t count)
{
    for (unsigned q = 0; q < n; q++)
        p->out[p->at++] = (uint8_t)('0' + (codeword >> q & 1));
    p->out[p->at++] = ' ';
    if (count == 255) {
        memcpy(p->out + p->at, "far\n", 4);
        p->at += 4;
    } else
        number(p, count, '\n');
}

static void text(Printer *p, const char *t)
{
    size_t length = strlen(t);
    memcpy(p->out + p->at, t, length);
    p->at += length;
}

/* The closing line. */
static void print_closing(Printer *p, const uint8_t *counts, unsigned length)
{
    unsigned clean = 0, far = 0, places = 0;
    for (unsigned i = 0; i < length; i++) {
        clean += counts[i] == 0;
        far += counts[i] == 255;
        places += counts[i] == 255 ? 0 : counts[i];
    }
    text(p, "clean ");
    number(p, clean, ' ');
    text(p, "mended ");
    number(p, length - clean - far, ' ');
    text(p, "far ");
    number(p, far, ' ');
    text(p, "places ");
    number(p, places, '\n');
}

size_t plain_run(const uint8_t *sheet, size_t length, uint8_t *out, size_t out_len)
{
    static Sheet s;
    static uint32_t codewords[512], work[4096];
    static uint8_t counts[512];
    Printer p = {out, 0};
    size_t value;
    uint32_t d;
    if (out_len < 20480)
        return 0;
    s.have = 0;
    uint32_t cause = read_sheet(sheet, length, &s, &value);
    if (cause == 0)
        cause = plain_decode(s.n, s.k, s.rows, s.row_count, s.have >> 4 & 1, s.radius, s.words, s.word_count, codewords, 512, counts,
                             512, work, 4096, &value, true, &d);
    if (cause)
        return refused(&p, cause, value);
    number(&p, s.n, ' ');
    number(&p, s.k, ' ');
    number(&p, d, ' ');
    number(&p, (d - 1) / 2, '\n');
    for (unsigned i = 0; i < s.word_count; i++)
        print_word(&p, s.n, codewords[i], counts[i]);
    print_closing(&p, counts, s.word_count);
    return p.at;
}
