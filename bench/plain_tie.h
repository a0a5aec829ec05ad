/* What ties two records in plain C, for comparison with the library. */
#ifndef BENCH_PLAIN_TIE_H
#define BENCH_PLAIN_TIE_H

#include "banthewig.h"

/* Whether two records are tied at a racking, and by what; arguments and answer as knitout_tie's. */
struct knitout_tied plain_tie(int8_t racking, const uint8_t *first, size_t first_length, const uint8_t *second,
                              size_t second_length);

#endif
