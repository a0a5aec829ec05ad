/* The kinds of records, by short names, and of log records; numbers and limits are those of banthewig.h. */
#ifndef BENCH_KINDS_H
#define BENCH_KINDS_H

#include "banthewig.h"

#include <stdlib.h>

enum {
    RACK = KNITOUT_RACK, DROP = KNITOUT_DROP, XFER = KNITOUT_XFER, IN = KNITOUT_IN, OUT = KNITOUT_OUT,
    MISS = KNITOUT_MISS, TUCK = KNITOUT_TUCK, KNIT = KNITOUT_KNIT, SPLIT = KNITOUT_SPLIT,
    PLATED_TUCK = KNITOUT_PLATED_TUCK, PLATED_KNIT = KNITOUT_PLATED_KNIT, KIND_LIMIT
};

/* The loops that a plated stitch forms. */
enum { PLATED_LOOPS = 2 };

/* The C library copies by alignment: what is lent is aligned to a line, a state and the stack of a counted call to a
   page, so that counts repeat in any environment. */
enum { LINE = 64, PAGE = 4096 };

/* A record's direction. */
enum { LEFT, RIGHT };

/* A log record: its kind, its size. */
enum { SWAP = 0x40, SWAP_SIZE = 3 };

/* A record's size, its kind included. */
static const uint8_t record_size[KIND_LIMIT] = { 0, 2, 3, 4, 5, 5, 5, 5, 5, 6, 6, 6 };

/* Can hooks have the limit? */
static inline int limit_in_range(unsigned limit) { return KNITOUT_LIMIT_LEAST <= limit && limit <= KNITOUT_LIMIT_MOST; }

/* Does a rack stretch a yarn? At racking 0 its attachment, on the back bed, is so many slots right of its carrier. */
static inline int stretches(int offset, int before, int after)
{
    int distance = abs(offset + after);
    return distance > KNITOUT_STRETCH_MOST && distance > abs(offset + before);
}

/* Limits in range and out of it. */
static const uint8_t limits[] = { 0, 1, 2, 3, 4, 5, 6, 7, 8, 9, 255 };
enum { LIMITS = sizeof limits };

/* An answer in one word. */
static inline uint64_t packed(int number, size_t place) { return (uint64_t)number << 16 | place; }

#endif
