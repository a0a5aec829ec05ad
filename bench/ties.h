/* The pairs of records on which the tie is measured. */
#ifndef BENCH_TIES_H
#define BENCH_TIES_H

#include "kinds.h"

/* A pair as it is lent. */
struct tie_pair {
    int8_t racking;
    const uint8_t *first, *second;
    size_t first_length, second_length;
};

enum { PAIRS_LIMIT = KNITOUT_PROGRAM_MOST / 2 };

/* One pair, or all neighbours of a program. */
struct tie_input {
    const char *name;
    unsigned pairs;
    struct tie_pair pair[PAIRS_LIMIT];
    struct knitout_tied told; /* of one pair */
};

/* How many there are; one by its place, the same one on every call. */
int count_ties(void);
const struct tie_input *build_tie(int i);

/* Have all fields the same values? */
int ties_agree(const struct knitout_tied *a, const struct knitout_tied *b);

/* Both versions on generated pairs: 1 if they differ, with a message. */
int generated_ties_differ(void);

#endif
