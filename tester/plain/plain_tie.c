/* What ties two records in plain C, written for speed: fields are looked at where they are lent, columns before layers. */
#include "plain.h"

#include "kinds.h"

/* Is a field of a record, whose bytes are there, out of its range? */
static inline int field_is_out(const uint8_t *p)
{
    switch (p[0]) {
    case RACK: return racking_is_out((int8_t)p[1]);
    case DROP: return bare_is_out(p);
    case XFER: return bare_is_out(p) || p[3] >= KNITOUT_NEEDLES;
    case SPLIT: return stitch_is_out(p) || p[5] >= KNITOUT_NEEDLES;
    case PLATED_TUCK: case PLATED_KNIT: return stitch_is_out(p) || carrier_is_out(p[5]);
    default: return stitch_is_out(p);
    }
}

/* Why there is no record at the front, or 0. */
static inline int refusal(const uint8_t *p, size_t length)
{
    if (length == 0) return KNITOUT_CUT_SHORT;
    if (p[0] < RACK || p[0] >= KIND_LIMIT) return KNITOUT_UNKNOWN_KIND;
    if (length < record_size[p[0]]) return KNITOUT_CUT_SHORT;
    return field_is_out(p) ? KNITOUT_FIELD_RANGE : KNITOUT_DONE;
}

static inline struct knitout_tied only(int number) { return (struct knitout_tied){ .number = (uint8_t)number }; }

static inline struct knitout_tied bound(int by, int carrier)
{
    return (struct knitout_tied){ .number = KNITOUT_TIED, .by = (uint8_t)by, .carrier = (uint8_t)carrier };
}

/* What the extents have in common, if anything. */
static inline struct knitout_tied crossing(const uint8_t *x, const uint8_t *y, int racking)
{
    struct span a = half_columns(x, racking), b = half_columns(y, racking);
    if (!spans_meet(a, b)) return only(KNITOUT_DONE);
    struct span e = layers(x), f = layers(y);
    if (!spans_meet(e, f)) return only(KNITOUT_DONE);
    return (struct knitout_tied){ greater(a.low, b.low), lesser(a.high, b.high), KNITOUT_TIED, KNITOUT_BY_EXTENTS, 0,
                                  (uint8_t)greater(e.low, f.low), (uint8_t)lesser(e.high, f.high) };
}

struct knitout_tied plain_tie(int8_t racking, const uint8_t *first, size_t first_length, const uint8_t *second,
                              size_t second_length)
{
    if (racking_is_out(racking)) return only(KNITOUT_BAD_STATE);
    int number = refusal(first, first_length);
    if (number) return only(number);
    number = refusal(second, second_length);
    if (number) return only(number);
    if (first[0] == RACK || second[0] == RACK) return bound(KNITOUT_BY_RACK, 0);
    int carrier = least_shared(first, second);
    if (carrier) return bound(KNITOUT_BY_CARRIER, carrier);
    return crossing(first, second, racking);
}
