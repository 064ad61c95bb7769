/* The cases of the benchmarks. */
#ifndef CASES_H
#define CASES_H

#include "plain.h"

typedef struct {
    const char *section, *name, *plain_name;
    void (*prepare)(void), (*ours)(void), (*plain)(void);
    Ways ways;
    int words;    /* of one run, by which its figures are divided; of interleaving its bits */
    bool matters; /* whether counts of ones matter to the plain side */
    bool less;    /* whether the run with no words, or fewer, is subtracted */
    bool timed;   /* whether it is timed alone: its instructions are too many to be counted */
} Case;

extern const Case cases[];
extern const size_t case_count;

/* Gives a case on lists all its words, or those of the run that is subtracted: none, or fewer where the case says so. */
void set_words(bool all);

/* Whether both sides were done and wrote the same. */
bool same(void);

#endif
