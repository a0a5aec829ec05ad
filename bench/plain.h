/* The run in plain C, for comparison with the library. */
#ifndef BENCH_PLAIN_H
#define BENCH_PLAIN_H

#include <stddef.h>
#include <stdint.h>

/* Runs a program from the empty state at a hook limit; arguments and answer as knitout_run_at's. */
uint64_t plain_run_at(uint8_t limit, const uint8_t *program, size_t length);

/* The same at limit 8. */
uint64_t plain_run(const uint8_t *program, size_t length);

#endif
