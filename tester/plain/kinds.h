/* The kinds of records by short names, with their words, sizes, fields and extents, which stand nowhere else in tester/plain.
   Numbers and limits are those of banthewig.h. */
#ifndef BENCH_KINDS_H
#define BENCH_KINDS_H

#include "banthewig.h"

#include <stdlib.h>

/* Short name, word, and size in bytes, its kind included. */
#define KINDS(KIND)                                                                                              \
    KIND(RACK, "rack", 2) KIND(DROP, "drop", 3) KIND(XFER, "xfer", 4) KIND(IN, "in", 5) KIND(OUT, "out", 5)      \
    KIND(MISS, "miss", 5) KIND(TUCK, "tuck", 5) KIND(KNIT, "knit", 5) KIND(SPLIT, "split", 6)                    \
    KIND(PLATED_TUCK, "plated-tuck", 6) KIND(PLATED_KNIT, "plated-knit", 6)

#define NUMBERED(name, word, size) name = KNITOUT_##name,
enum { KINDS(NUMBERED) KIND_LIMIT };
#undef NUMBERED

#define SIZED(name, word, size) name##_SIZE = size,
enum { KINDS(SIZED) };
#undef SIZED

#define LISTED(name, word, size) [name] = size,
static const uint8_t record_size[KIND_LIMIT] = { KINDS(LISTED) };
#undef LISTED

/* The word of a kind. */
static inline const char *kind_word(int kind)
{
#define WORDED(name, word, size) [name] = word,
    static const char *const words[KIND_LIMIT] = { KINDS(WORDED) };
#undef WORDED
    return words[kind];
}

/* A record's direction. */
enum { LEFT = KNITOUT_TO_LEFT, RIGHT = KNITOUT_TO_RIGHT };

/* The loops that a plated stitch forms. */
enum { PLATED_LOOPS = 2 };

/* For the compiler, which lays branches out for the other case. */
#define SELDOM(holds) __builtin_expect(holds, 0)

/* An answer in one word. */
static inline uint64_t packed(int number, size_t place) { return (uint64_t)number << 16 | place; }

/* ---- Values out of their ranges */

static inline int limit_is_out(unsigned limit) { return limit < KNITOUT_LIMIT_LEAST || KNITOUT_LIMIT_MOST < limit; }

static inline int racking_is_out(int racking) { return racking < KNITOUT_RACKING_LEAST || KNITOUT_RACKING_MOST < racking; }

static inline int carrier_is_out(unsigned carrier) { return carrier - 1u >= KNITOUT_CARRIERS; }

/* Bed and needle of a drop or an xfer. */
static inline int bare_is_out(const uint8_t *p) { return p[1] > KNITOUT_BACK || p[2] >= KNITOUT_NEEDLES; }

/* Direction, bed, needle and carrier of the others, which are no racks. */
static inline int stitch_is_out(const uint8_t *p)
{
    return (p[1] | p[2]) > 1 || p[3] >= KNITOUT_NEEDLES || carrier_is_out(p[4]);
}

/* ---- Extents and carriers, of records that are no racks and whose fields are in range */

static inline int has_carrier(const uint8_t *p) { return p[0] >= IN; }
static inline int is_plated(const uint8_t *p) { return p[0] >= PLATED_TUCK; }

static inline int lesser(int a, int b) { return a < b ? a : b; }
static inline int greater(int a, int b) { return a > b ? a : b; }

/* Half columns or layers, from the lowest to the highest. */
struct span {
    int low, high;
};

static inline int spans_meet(struct span a, struct span b) { return a.low <= b.high && b.low <= a.high; }

/* Bed and needle come first in drop and xfer, after the direction in the others. */
static inline int column_at(const uint8_t *p, int racking)
{
    const uint8_t *at = p + 1 + has_carrier(p);
    return at[0] ? at[1] + racking : at[1];
}

/* Those with a carrier cover half a column to each side, too. */
static inline struct span half_columns(const uint8_t *p, int racking)
{
    int middle = 2 * column_at(p, racking);
    return (struct span){ middle - has_carrier(p), middle + has_carrier(p) };
}

static inline struct span layers(const uint8_t *p)
{
    enum { FRONT = KNITOUT_LAYER_FRONT, BACK = KNITOUT_LAYER_BACK };
    switch (p[0]) {
    case DROP: return p[1] ? (struct span){ BACK, BACK } : (struct span){ FRONT, FRONT };
    case IN: case OUT: case MISS: return (struct span){ p[4], p[4] };
    case TUCK: case KNIT: return p[2] ? (struct span){ p[4], BACK } : (struct span){ FRONT, p[4] };
    case PLATED_TUCK: case PLATED_KNIT:
        return p[2] ? (struct span){ lesser(p[4], p[5]), BACK } : (struct span){ FRONT, greater(p[4], p[5]) };
    default: return (struct span){ FRONT, BACK };
    }
}

static inline int extents_meet(const uint8_t *x, const uint8_t *y, int racking)
{
    return spans_meet(half_columns(x, racking), half_columns(y, racking)) && spans_meet(layers(x), layers(y));
}

/* The carrier if y, which has one, names it, else 0. */
static inline int called(const uint8_t *y, int carrier)
{
    return y[4] == carrier || (is_plated(y) && y[5] == carrier) ? carrier : 0;
}

/* The least carrier that both name, 0 if there is none. */
static inline int least_shared(const uint8_t *x, const uint8_t *y)
{
    if (!has_carrier(x) || !has_carrier(y)) return 0;
    int first = called(y, x[4]), second = is_plated(x) ? called(y, x[5]) : 0;
    return first && second ? lesser(first, second) : first | second;
}

#endif
