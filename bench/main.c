/* The proved library against plain C, case by case:
 *   bench list                      a line for each case: section, name, the plain C, the words (of interleaving the bits) of a
 *                                   run, whether counts of ones matter to the plain C, whether the run with no words, or
 *                                   fewer, is to be subtracted, and whether the case is timed alone
 *   bench check CASE                both sides give the same
 *   bench time CASE                 nanoseconds of a run, library and plain
 *   bench count CASE SIDE WORDS     makes runs of one side inside `measured`, for callgrind; prints how many
 * CASE is a number from 0, SIDE ours or plain, WORDS all or, for the run to be subtracted, none.
 */
#include "cases.h"
#include <stdio.h>
#include <stdlib.h>
#include <string.h>
#include <time.h>

/* In nanoseconds: about so long is a round of the slower side, so that most of them pass undisturbed; and a run from which on few are made. */
#define SLICE 3e5
#define SLOW 1e7

static double now(void)
{
    struct timespec t;
    clock_gettime(CLOCK_MONOTONIC, &t);
    return (double)t.tv_sec * 1e9 + (double)t.tv_nsec;
}

__attribute__((noipa)) void measured(void (*call)(void), long times)
{
    for (long i = 0; i < times; i++)
        call();
}

static double timed(void (*call)(void), long times)
{
    double start = now();
    measured(call, times);
    return (now() - start) / (double)times;
}

static void list(void)
{
    for (size_t i = 0; i < case_count; i++) {
        const Case *c = &cases[i];
        printf("%s\t%s\t%s\t%d\t%d\t%d\t%d\n", c->section, c->name, c->plain_name, c->words, c->matters, c->less, c->timed);
    }
}

static int check(const Case *c)
{
    c->ours();
    c->plain();
    return same() ? 0 : 1;
}

/* The least nanoseconds of a run of each side, all words and, where that is subtracted, none of them; taken in turn. */
static void time_both(const Case *c)
{
    double ours = timed(c->ours, 1), plain = timed(c->plain, 1), once = ours > plain ? ours : plain, best[4] = {1e18, 1e18, 1e18, 1e18};
    long times = (long)(SLICE / once) + 1;
    int kinds = c->less ? 4 : 2, rounds = once > SLOW ? 5 : 300;
    for (int i = 0; i < kinds * rounds; i++) {
        int kind = i % kinds;
        set_words(kind < 2);
        double t = timed(kind % 2 ? c->plain : c->ours, times);
        if (t < best[kind])
            best[kind] = t;
    }
    for (int side = 0; side < 2; side++)
        printf("%.3f\n", best[side] - (c->less ? best[2 + side] : 0));
}

static void count_one(const Case *c, bool plain)
{
    long times = c->words > 1 ? 10 : 1;
    measured(plain ? c->plain : c->ours, times);
    printf("%ld\n", times);
}

int main(int n, char **argument)
{
    if (n < 3) {
        list();
        return 0;
    }
    const Case *c = &cases[strtoul(argument[2], NULL, 10) % case_count];
    ways = c->ways;
    c->prepare();
    if (strcmp(argument[1], "check") == 0)
        return check(c);
    if (strcmp(argument[1], "time") == 0)
        time_both(c);
    else if (n > 4) {
        set_words(strcmp(argument[4], "all") == 0);
        count_one(c, strcmp(argument[3], "plain") == 0);
    }
    return 0;
}
