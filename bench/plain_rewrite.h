/* The rewriter in plain C, for comparison with the library. */
#ifndef BENCH_PLAIN_REWRITE_H
#define BENCH_PLAIN_REWRITE_H

#include <stddef.h>
#include <stdint.h>

/* Runs a program at a hook limit and makes a log's swaps in a copy of it; arguments, writes and answer as
   knitout_rewrite_at's. */
uint64_t plain_rewrite_at(uint8_t limit, const uint8_t *program, size_t length, const uint8_t *log, size_t log_length,
                          uint8_t *output, size_t output_length, uint16_t *work, size_t work_count);

/* The same at limit 8. */
uint64_t plain_rewrite(const uint8_t *program, size_t length, const uint8_t *log, size_t log_length,
                       uint8_t *output, size_t output_length, uint16_t *work, size_t work_count);

#endif
