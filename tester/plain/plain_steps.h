/* The step of one record in plain C, on the machine of the file that includes this: the run's or the panel's. Before it
   that file has the types machine (loops, limit, carriers) and carrier (slot), and
     racking_of, set_racking: a machine's; hook_of: a needle's place among the loops; column_of: its column;
     is_active, is_parked_at: of a carrier; is_attached, is_attached_back, is_attached_at, bed_of, needle_of, side_of
     (0 left, 1 right): of its attachment; park, take_out, attach, move_attachment: what changes them. */
#include "kinds.h"

/* The fields of a record with a carrier, in range. */
struct stitch {
    int right, bed, needle, hook, column;
    carrier *carrier;
};

static inline int entry_slot(const struct stitch *t) { return t->column + (t->right ^ 1); }
static inline int exit_slot(const struct stitch *t) { return t->column + t->right; }

/* Does a rack stretch some yarn? Only those attached on the back bed: no other attachment moves. */
static inline int any_stretched(const machine *s, int racking)
{
    for (int i = 0; i < KNITOUT_CARRIERS; i++) {
        const carrier *c = &s->carriers[i];
        if (!is_attached_back(c)) continue;
        int offset = needle_of(c) + side_of(c) - c->slot, distance = abs(offset + racking);
        if (distance > KNITOUT_STRETCH_MOST && distance > abs(offset + racking_of(s))) return 1;
    }
    return 0;
}

static inline int rack(machine *s, const uint8_t *p)
{
    int racking = (int8_t)p[1];
    if (SELDOM(racking_is_out(racking))) return KNITOUT_FIELD_RANGE;
    if (any_stretched(s, racking)) return KNITOUT_STRETCHED;
    set_racking(s, racking);
    return KNITOUT_DONE;
}

static inline int drop(machine *s, const uint8_t *p)
{
    if (bare_is_out(p)) return KNITOUT_FIELD_RANGE;
    s->loops[hook_of(p[1], p[2])] = 0;
    return KNITOUT_DONE;
}

/* Moves loops and attachments to a needle of the other bed, if there is room. */
static inline int move(machine *s, int bed, int needle, int other)
{
    uint8_t *from = &s->loops[hook_of(bed, needle)], *to = &s->loops[hook_of(bed ^ 1, other)];
    int loops = *from + *to;
    if (loops > s->limit) return KNITOUT_HOOK_FULL;
    *to = (uint8_t)loops;
    *from = 0;
    for (int i = 0; i < KNITOUT_CARRIERS; i++)
        if (is_attached_at(&s->carriers[i], bed, needle)) move_attachment(&s->carriers[i], bed ^ 1, other);
    return KNITOUT_DONE;
}

static inline int xfer(machine *s, const uint8_t *p)
{
    if (SELDOM(bare_is_out(p) || p[3] >= KNITOUT_NEEDLES)) return KNITOUT_FIELD_RANGE;
    if (column_of(s, p[1], p[2]) != column_of(s, p[1] ^ 1, p[3])) return KNITOUT_NOT_OPPOSITE;
    return move(s, p[1], p[2], p[3]);
}

/* Is the carrier parked at this slot? */
static inline int parked(const carrier *c, int slot)
{
    if (is_parked_at(c, slot)) return KNITOUT_DONE;
    return is_active(c) ? KNITOUT_WRONG_SLOT : KNITOUT_NOT_IN;
}

static inline int in(const struct stitch *t)
{
    if (is_active(t->carrier)) return KNITOUT_ALREADY_IN;
    park(t->carrier, entry_slot(t));
    return KNITOUT_DONE;
}

static inline int out(const struct stitch *t)
{
    int number = parked(t->carrier, exit_slot(t));
    if (number == KNITOUT_DONE) take_out(t->carrier);
    return number;
}

static inline int miss(const struct stitch *t)
{
    int number = parked(t->carrier, entry_slot(t));
    if (number == KNITOUT_DONE) park(t->carrier, exit_slot(t));
    return number;
}

/* Is the float to the column too long? */
static inline int floats(const machine *s, const carrier *c, int column)
{
    if (!is_attached(c)) return KNITOUT_DONE;
    int distance = column_of(s, bed_of(c), needle_of(c)) - column;
    if (distance < -KNITOUT_FLOAT_MOST || distance > KNITOUT_FLOAT_MOST) return KNITOUT_FLOAT_TOO_LONG;
    return KNITOUT_DONE;
}

/* What a stitch that forms a loop asks of the carrier: parked at the entry, no long float. */
static inline int reaches(const machine *s, const struct stitch *t)
{
    int number = parked(t->carrier, entry_slot(t));
    return number ? number : floats(s, t->carrier, t->column);
}

static inline void attach_at(const struct stitch *t, carrier *c) { attach(c, exit_slot(t), t->right, t->bed, t->needle); }

/* The hook holds so many loops, the carrier is attached to it. */
static inline int form(machine *s, const struct stitch *t, int loops)
{
    s->loops[t->hook] = (uint8_t)loops;
    attach_at(t, t->carrier);
    return KNITOUT_DONE;
}

static inline int tuck(machine *s, const struct stitch *t)
{
    int number = reaches(s, t);
    if (number) return number;
    if (s->loops[t->hook] >= s->limit) return KNITOUT_HOOK_FULL;
    return form(s, t, s->loops[t->hook] + 1);
}

static inline int knit(machine *s, const struct stitch *t)
{
    int number = reaches(s, t);
    return number ? number : form(s, t, 1);
}

static inline int split(machine *s, const struct stitch *t, int other)
{
    if (other >= KNITOUT_NEEDLES) return KNITOUT_FIELD_RANGE;
    int number = reaches(s, t);
    if (number) return number;
    if (t->column != column_of(s, t->bed ^ 1, other)) return KNITOUT_NOT_OPPOSITE;
    number = move(s, t->bed, t->needle, other);
    return number ? number : form(s, t, 1);
}

/* What a plated stitch asks of its carriers: the smallest number that either gives. */
static inline int both_reach(const machine *s, const struct stitch *t, const carrier *second)
{
    int slot = entry_slot(t);
    if (!is_parked_at(t->carrier, slot) || !is_parked_at(second, slot))
        return is_active(t->carrier) && is_active(second) ? KNITOUT_WRONG_SLOT : KNITOUT_NOT_IN;
    int number = floats(s, t->carrier, t->column);
    return number ? number : floats(s, second, t->column);
}

/* A plated tuck or knit, by the loops that the hook keeps. */
static inline int plated(machine *s, const struct stitch *t, const uint8_t *p, int kept)
{
    if (SELDOM(carrier_is_out(p[5]))) return KNITOUT_FIELD_RANGE;
    if (p[4] == p[5]) return KNITOUT_YARN_TWICE;
    carrier *second = &s->carriers[p[5] - 1u];
    int number = both_reach(s, t, second);
    if (number) return number;
    if (kept + PLATED_LOOPS > s->limit) return KNITOUT_HOOK_FULL;
    attach_at(t, second);
    return form(s, t, kept + PLATED_LOOPS);
}

/* A record with a carrier, of a kind that is constant where this is called, so that nothing is left of the switch. */
__attribute__((always_inline)) static inline int stitch(machine *s, const uint8_t *p, int kind)
{
    if (SELDOM(stitch_is_out(p))) return KNITOUT_FIELD_RANGE;
    struct stitch t = { p[1], p[2], p[3], hook_of(p[2], p[3]), column_of(s, p[2], p[3]), &s->carriers[p[4] - 1u] };
    switch (kind) {
    case IN: return in(&t);
    case OUT: return out(&t);
    case MISS: return miss(&t);
    case TUCK: return tuck(s, &t);
    case KNIT: return knit(s, &t);
    case SPLIT: return split(s, &t, p[5]);
    case PLATED_TUCK: return plated(s, &t, p, s->loops[t.hook]);
    default: return plated(s, &t, p, 0);
    }
}

/* The record at the front of some bytes, one at least; its size goes to *size if they are enough. */
static inline int step(machine *s, const uint8_t *p, size_t left, size_t *size)
{
#define CASE(kind, made) case kind: if (left < kind##_SIZE) return KNITOUT_CUT_SHORT; *size = kind##_SIZE; return made
    switch (p[0]) {
    CASE(RACK, rack(s, p));
    CASE(DROP, drop(s, p));
    CASE(XFER, xfer(s, p));
    CASE(IN, stitch(s, p, IN));
    CASE(OUT, stitch(s, p, OUT));
    CASE(MISS, stitch(s, p, MISS));
    CASE(TUCK, stitch(s, p, TUCK));
    CASE(KNIT, stitch(s, p, KNIT));
    CASE(SPLIT, stitch(s, p, SPLIT));
    CASE(PLATED_TUCK, stitch(s, p, PLATED_TUCK));
    CASE(PLATED_KNIT, stitch(s, p, PLATED_KNIT));
    default: return KNITOUT_UNKNOWN_KIND;
    }
#undef CASE
}
