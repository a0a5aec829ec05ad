/* The library in plain C: its nine calls, with the arguments, writes and answers that banthewig.h has for them. */
#ifndef BENCH_PLAIN_H
#define BENCH_PLAIN_H

/* It needs no archive: what is made of plain C alone can be loaded by itself. */
#pragma weak knitout_interface_3
#include "banthewig.h"

uint64_t plain_run_at(uint8_t limit, const uint8_t *program, size_t length);
uint64_t plain_run(const uint8_t *program, size_t length);
uint64_t plain_rewrite_at(uint8_t limit, const uint8_t *program, size_t program_length, const uint8_t *log,
                          size_t log_length, uint8_t *output, size_t output_length, uint16_t *work, size_t work_count);
uint64_t plain_rewrite(const uint8_t *program, size_t program_length, const uint8_t *log, size_t log_length,
                       uint8_t *output, size_t output_length, uint16_t *work, size_t work_count);
uint64_t plain_order_at(uint8_t limit, const uint8_t *program, size_t program_length, uint8_t *output,
                        size_t output_length, uint16_t *work, size_t work_count);
uint64_t plain_order(const uint8_t *program, size_t program_length, uint8_t *output, size_t output_length, uint16_t *work,
                     size_t work_count);
struct knitout_tied plain_tie(int8_t racking, const uint8_t *first, size_t first_length, const uint8_t *second,
                              size_t second_length);
struct knitout_stepped plain_step(struct knitout_state *state, const uint8_t *bytes, size_t length);
struct knitout_served plain_carriers(const struct knitout_state *state, struct knitout_carrier *list, size_t count);

#endif
