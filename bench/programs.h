/* The programs that are measured. */
#ifndef BENCH_PROGRAMS_H
#define BENCH_PROGRAMS_H

#include "kinds.h"

enum { PROGRAMS = 25 };

struct program {
    const char *name;
    _Alignas(LINE) uint8_t bytes[KNITOUT_PROGRAM_MOST];
    size_t length;
    unsigned records;             /* that a run comes to, a refused one included */
    unsigned of_kind[KIND_LIMIT]; /* the same, by kind; entry 0 is not used */
    uint8_t at;                   /* the limit of an entry at a limit; 0: the entry at 8 */
    uint64_t answer;              /* what a run gives */
};

/* A program by its place or by its name, the same one on every call. */
const struct program *build_program(int i);
const struct program *find_program(const char *name);

/* A program of all kinds, valid at a hook limit, of exactly this length, which is 2 or more. */
void build_generated(struct program *program, size_t length, int limit, uint32_t seed);

/* A number below n, the same sequence from one seed. */
unsigned choose_below(uint32_t *seed, unsigned n);

/* The name of a kind 1 to 11. */
const char *kind_name(int kind);

#endif
