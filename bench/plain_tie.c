/* What ties two records in plain C, written for speed: fields are looked at where they are lent, columns before layers. */
#include "plain_tie.h"

#include "plain_extents.h"

static inline int racking_in_range(int racking)
{
    return KNITOUT_RACKING_LEAST <= racking && racking <= KNITOUT_RACKING_MOST;
}

static inline int bare_in_range(const uint8_t *p) { return p[1] <= KNITOUT_BACK && p[2] < KNITOUT_NEEDLES; }

static inline int carrier_in_range(unsigned carrier) { return carrier - 1u < KNITOUT_CARRIERS; }

static inline int stitch_in_range(const uint8_t *p)
{
    return (p[1] | p[2]) <= 1 && p[3] < KNITOUT_NEEDLES && carrier_in_range(p[4]);
}

/* Are the fields of a record, whose bytes are there, in range? */
static inline int fields_in_range(const uint8_t *p)
{
    switch (p[0]) {
    case RACK: return racking_in_range((int8_t)p[1]);
    case DROP: return bare_in_range(p);
    case XFER: return bare_in_range(p) && p[3] < KNITOUT_NEEDLES;
    case SPLIT: return stitch_in_range(p) && p[5] < KNITOUT_NEEDLES;
    case PLATED_TUCK: case PLATED_KNIT: return stitch_in_range(p) && carrier_in_range(p[5]);
    default: return stitch_in_range(p);
    }
}

/* Why there is no record at the front, or 0. */
static inline int refusal(const uint8_t *p, size_t length)
{
    if (length == 0) return KNITOUT_CUT_SHORT;
    if (p[0] < RACK || p[0] >= KIND_LIMIT) return KNITOUT_UNKNOWN_KIND;
    if (length < record_size[p[0]]) return KNITOUT_CUT_SHORT;
    return fields_in_range(p) ? KNITOUT_DONE : KNITOUT_FIELD_RANGE;
}

/* The carrier if y, which has one, names it, else 0. */
static inline int called(const uint8_t *y, int carrier)
{
    return y[4] == carrier || (is_plated(y) && y[5] == carrier) ? carrier : 0;
}

/* The least carrier that both name, 0 if there is none. */
static inline int least_shared(const uint8_t *x, const uint8_t *y)
{
    if (!has_carrier(x) || !has_carrier(y)) return 0;
    int first = called(y, x[4]), second = is_plated(x) ? called(y, x[5]) : 0;
    return first && second ? lesser(first, second) : first | second;
}

static inline struct knitout_tied only(int number) { return (struct knitout_tied){ .number = (uint8_t)number }; }

static inline struct knitout_tied bound(int by, int carrier)
{
    return (struct knitout_tied){ .number = KNITOUT_TIED, .by = (uint8_t)by, .carrier = (uint8_t)carrier };
}

/* The layers of an extent. */
struct layers {
    int low, high;
};

static inline struct layers layers_of(const uint8_t *p)
{
    if (p[0] == XFER || p[0] == SPLIT) return (struct layers){ FRONT_LAYER, BACK_LAYER };
    if (p[0] == DROP) return p[1] ? (struct layers){ BACK_LAYER, BACK_LAYER } : (struct layers){ FRONT_LAYER, FRONT_LAYER };
    struct layers l = { p[4], p[4] };
    if (p[0] <= MISS) return l;
    if (is_plated(p)) l = (struct layers){ lesser(p[4], p[5]), greater(p[4], p[5]) };
    if (p[2]) l.high = BACK_LAYER;
    else l.low = FRONT_LAYER;
    return l;
}

/* What the extents have in common, if anything. */
static inline struct knitout_tied crossing(const uint8_t *x, const uint8_t *y, int racking)
{
    int a = 2 * column_of(x, racking), b = 2 * column_of(y, racking);
    int left = greater(a - has_carrier(x), b - has_carrier(y)), right = lesser(a + has_carrier(x), b + has_carrier(y));
    if (right < left) return only(KNITOUT_DONE);
    struct layers e = layers_of(x), f = layers_of(y);
    int low = greater(e.low, f.low), high = lesser(e.high, f.high);
    if (high < low) return only(KNITOUT_DONE);
    return (struct knitout_tied){ left, right, KNITOUT_TIED, KNITOUT_BY_EXTENTS, 0, (uint8_t)low, (uint8_t)high };
}

struct knitout_tied plain_tie(int8_t racking, const uint8_t *first, size_t first_length, const uint8_t *second,
                              size_t second_length)
{
    if (!racking_in_range(racking)) return only(KNITOUT_BAD_STATE);
    int number = refusal(first, first_length);
    if (number) return only(number);
    number = refusal(second, second_length);
    if (number) return only(number);
    if (first[0] == RACK || second[0] == RACK) return bound(KNITOUT_BY_RACK, 0);
    int carrier = least_shared(first, second);
    if (carrier) return bound(KNITOUT_BY_CARRIER, carrier);
    return crossing(first, second, racking);
}
