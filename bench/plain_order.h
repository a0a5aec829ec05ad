/* The house order in plain C, for comparison with the library. */
#ifndef BENCH_PLAIN_ORDER_H
#define BENCH_PLAIN_ORDER_H

#include <stddef.h>
#include <stdint.h>

/* Runs a program at a hook limit and writes its house order; arguments, writes and answer as knitout_order_at's. */
uint64_t plain_order_at(uint8_t limit, const uint8_t *program, size_t length, uint8_t *output, size_t output_length,
                        uint16_t *work, size_t work_count);

/* The same at limit 8. */
uint64_t plain_order(const uint8_t *program, size_t length, uint8_t *output, size_t output_length, uint16_t *work,
                     size_t work_count);

#endif
