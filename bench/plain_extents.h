/* Extents and shared carriers in plain C, of records that are no racks and whose fields have been checked. */
#ifndef BENCH_PLAIN_EXTENTS_H
#define BENCH_PLAIN_EXTENTS_H

#include "kinds.h"

/* Layers: the beds', and between them the carriers' by their numbers. */
enum { FRONT_LAYER = 0, BACK_LAYER = 11 };

/* Of kinds 4 to 11: these cover half a column to each side, too. */
static inline int has_carrier(const uint8_t *p) { return p[0] >= IN; }

/* Bed and needle come first in drop and xfer, after the direction in the others. */
static inline int column_of(const uint8_t *p, int racking)
{
    const uint8_t *at = p + 1 + has_carrier(p);
    return at[0] ? at[1] + racking : at[1];
}

static inline int is_plated(const uint8_t *p) { return p[0] >= PLATED_TUCK; }

static inline int lesser(int a, int b) { return a < b ? a : b; }
static inline int greater(int a, int b) { return a > b ? a : b; }

static inline int lowest_layer(const uint8_t *p)
{
    switch (p[0]) {
    case DROP: return p[1] ? BACK_LAYER : FRONT_LAYER;
    case IN: case OUT: case MISS: return p[4];
    case TUCK: case KNIT: return p[2] ? p[4] : FRONT_LAYER;
    case PLATED_TUCK: case PLATED_KNIT: return p[2] ? lesser(p[4], p[5]) : FRONT_LAYER;
    default: return FRONT_LAYER;
    }
}

static inline int highest_layer(const uint8_t *p)
{
    switch (p[0]) {
    case DROP: return p[1] ? BACK_LAYER : FRONT_LAYER;
    case IN: case OUT: case MISS: return p[4];
    case TUCK: case KNIT: return p[2] ? BACK_LAYER : p[4];
    case PLATED_TUCK: case PLATED_KNIT: return p[2] ? BACK_LAYER : greater(p[4], p[5]);
    default: return BACK_LAYER;
    }
}

/* Do the extents share a half column? */
static inline int share_column(const uint8_t *x, const uint8_t *y, int racking)
{
    int reach = has_carrier(x) + has_carrier(y);
    int apart = 2 * (column_of(x, racking) - column_of(y, racking));
    return -reach <= apart && apart <= reach;
}

static inline int share_layer(const uint8_t *x, const uint8_t *y)
{
    return lowest_layer(x) <= highest_layer(y) && lowest_layer(y) <= highest_layer(x);
}

static inline int share_carrier(const uint8_t *x, const uint8_t *y)
{
    if (!has_carrier(x) || !has_carrier(y)) return 0;
    if (x[4] == y[4]) return 1;
    if (is_plated(x) && (x[5] == y[4] || (is_plated(y) && x[5] == y[5]))) return 1;
    return is_plated(y) && x[4] == y[5];
}

#endif
