/* The programs and logs on which the rewriter is measured. */
#ifndef BENCH_SWAPS_H
#define BENCH_SWAPS_H

#include "kinds.h"

/* How a log's positions go; `bench/swaps.c` says more. */
enum log_kind { AT, SPREAD, ENDS, FOUND, FORTH_AND_BACK, AGAIN };

/* What a case is named by: `bench/swaps.c` says what each program holds. */
struct swap_case {
    const char *table; /* that it is printed in */
    const char *program;
    unsigned records;
    enum log_kind log;
    unsigned position; /* of the two drops, and of every swap AT it or AGAIN */
    unsigned swaps;    /* records of the log */
    unsigned number;   /* of the answer: 0 if every swap is accepted */
    uint8_t at;        /* the limit of the entry at a limit; 0: the entry at 8 */
};

/* A case built. */
struct swap_input {
    _Alignas(LINE) uint8_t program[KNITOUT_PROGRAM_MOST];
    size_t length;
    unsigned records;
    uint8_t log[KNITOUT_LOG_MOST];
    size_t log_length;
    uint64_t answer;
};

/* All cases. Before a case with swaps stands the last one with its program and an empty log. */
const struct swap_case *list_swaps(int *cases);

/* Builds a case, the same one on every call. */
const struct swap_input *build_swaps(const struct swap_case *c);

#endif
