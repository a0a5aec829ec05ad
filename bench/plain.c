/* The run in plain C, written for speed: one state changed in place, one switch on the kind. */
#include "plain.h"

#include "kinds.h"

#include <string.h>

/* Outside the slots -8 to 258 and the hooks 0 to 511, of which those from 256 on are the back bed's. */
enum { INACTIVE = -32768, UNATTACHED = -1, BACK_HOOK = 256 };

/* A hook is bed * 256 + needle, so that two bytes name it and a shift gives the bed. */
struct carrier {
    int slot;       /* or INACTIVE */
    int16_t hook;   /* of the attachment, or UNATTACHED */
    uint8_t side;   /* of the attachment: 0 left, 1 right */
};

struct state {
    int shift[2];   /* from needle to column: 0 on the front bed, the racking on the back */
    int limit;      /* of loops on a hook */
    uint8_t loops[512];
    struct carrier carriers[KNITOUT_CARRIERS];
};

/* The fields of a record with a carrier, in range. */
struct stitch {
    int right, hook, column;
    struct carrier *carrier;
};

static inline int column_of(const struct state *s, int hook)
{
    return (hook & 255) + s->shift[hook >> 8];
}

static inline int entry_slot(const struct stitch *t) { return t->column + (t->right ^ 1); }
static inline int exit_slot(const struct stitch *t) { return t->column + t->right; }

/* Does a rack stretch some yarn? Only those attached on the back bed: no other attachment moves. */
static inline int any_stretched(const struct state *s, int racking)
{
    for (int i = 0; i < KNITOUT_CARRIERS; i++) {
        const struct carrier *c = &s->carriers[i];
        if (c->hook < BACK_HOOK) continue;
        if (stretches((c->hook & 255) + c->side - c->slot, s->shift[1], racking)) return 1;
    }
    return 0;
}

static inline int rack(struct state *s, const uint8_t *p)
{
    int racking = (int8_t)p[1];
    if (racking < KNITOUT_RACKING_LEAST || racking > KNITOUT_RACKING_MOST) return KNITOUT_FIELD_RANGE;
    if (any_stretched(s, racking)) return KNITOUT_STRETCHED;
    s->shift[1] = racking;
    return KNITOUT_DONE;
}

static inline int drop(struct state *s, const uint8_t *p)
{
    if (p[1] > 1 || p[2] >= KNITOUT_NEEDLES) return KNITOUT_FIELD_RANGE;
    s->loops[p[1] << 8 | p[2]] = 0;
    return KNITOUT_DONE;
}

/* Moves loops and attachments between two hooks, if there is room. */
static inline int move(struct state *s, int from, int to)
{
    int loops = s->loops[from] + s->loops[to];
    if (loops > s->limit) return KNITOUT_HOOK_FULL;
    s->loops[to] = (uint8_t)loops;
    s->loops[from] = 0;
    for (int i = 0; i < KNITOUT_CARRIERS; i++)
        if (s->carriers[i].hook == (int16_t)from) s->carriers[i].hook = (int16_t)to;
    return KNITOUT_DONE;
}

static inline int xfer(struct state *s, const uint8_t *p)
{
    if (p[1] > 1 || p[2] >= KNITOUT_NEEDLES || p[3] >= KNITOUT_NEEDLES) return KNITOUT_FIELD_RANGE;
    int bed = p[1], other = bed ^ 1;
    if (p[2] + s->shift[bed] != p[3] + s->shift[other]) return KNITOUT_NOT_OPPOSITE;
    return move(s, bed << 8 | p[2], other << 8 | p[3]);
}

/* Reads direction, bed, needle and carrier. */
static inline int read_stitch(struct state *s, const uint8_t *p, struct stitch *t)
{
    unsigned carrier = p[4] - 1u;
    if ((p[1] | p[2]) > 1 || p[3] >= KNITOUT_NEEDLES || carrier >= KNITOUT_CARRIERS) return KNITOUT_FIELD_RANGE;
    t->right = p[1];
    t->hook = p[2] << 8 | p[3];
    t->column = p[3] + s->shift[p[2]];
    t->carrier = &s->carriers[carrier];
    return KNITOUT_DONE;
}

/* Is the carrier parked at this slot? */
static inline int parked(const struct carrier *c, int slot)
{
    if (c->slot != slot) return c->slot == INACTIVE ? KNITOUT_NOT_IN : KNITOUT_WRONG_SLOT;
    return KNITOUT_DONE;
}

static inline int in(struct state *s, const uint8_t *p)
{
    struct stitch t;
    int number = read_stitch(s, p, &t);
    if (number) return number;
    if (t.carrier->slot != INACTIVE) return KNITOUT_ALREADY_IN;
    t.carrier->slot = entry_slot(&t);
    return KNITOUT_DONE;
}

static inline int out(struct state *s, const uint8_t *p)
{
    struct stitch t;
    int number = read_stitch(s, p, &t);
    if (number) return number;
    number = parked(t.carrier, exit_slot(&t));
    if (number) return number;
    t.carrier->slot = INACTIVE;
    t.carrier->hook = UNATTACHED;
    t.carrier->side = 0;
    return KNITOUT_DONE;
}

static inline int miss(struct state *s, const uint8_t *p)
{
    struct stitch t;
    int number = read_stitch(s, p, &t);
    if (number) return number;
    number = parked(t.carrier, entry_slot(&t));
    if (number) return number;
    t.carrier->slot = exit_slot(&t);
    return KNITOUT_DONE;
}

/* Is the float to the column too long? */
static inline int floats(const struct state *s, const struct carrier *c, int column)
{
    if (c->hook == UNATTACHED) return KNITOUT_DONE;
    int distance = column_of(s, c->hook) - column;
    if (distance < -KNITOUT_FLOAT_MOST || distance > KNITOUT_FLOAT_MOST) return KNITOUT_FLOAT_TOO_LONG;
    return KNITOUT_DONE;
}

/* What a stitch that forms a loop asks of the carrier: parked at the entry, no long float. */
static inline int reaches(const struct state *s, const struct stitch *t)
{
    int number = parked(t->carrier, entry_slot(t));
    return number ? number : floats(s, t->carrier, t->column);
}

static inline void attach(const struct stitch *t, struct carrier *c)
{
    c->slot = exit_slot(t);
    c->hook = (int16_t)t->hook;
    c->side = (uint8_t)t->right;
}

static inline int tuck(struct state *s, const uint8_t *p)
{
    struct stitch t;
    int number = read_stitch(s, p, &t);
    if (number) return number;
    number = reaches(s, &t);
    if (number) return number;
    if (s->loops[t.hook] >= s->limit) return KNITOUT_HOOK_FULL;
    s->loops[t.hook]++;
    attach(&t, t.carrier);
    return KNITOUT_DONE;
}

static inline int knit(struct state *s, const uint8_t *p)
{
    struct stitch t;
    int number = read_stitch(s, p, &t);
    if (number) return number;
    number = reaches(s, &t);
    if (number) return number;
    s->loops[t.hook] = 1;
    attach(&t, t.carrier);
    return KNITOUT_DONE;
}

static inline int split(struct state *s, const uint8_t *p)
{
    struct stitch t;
    int number = read_stitch(s, p, &t);
    if (number) return number;
    if (p[5] >= KNITOUT_NEEDLES) return KNITOUT_FIELD_RANGE;
    number = reaches(s, &t);
    if (number) return number;
    int other = p[2] ^ 1;
    if (t.column != p[5] + s->shift[other]) return KNITOUT_NOT_OPPOSITE;
    number = move(s, t.hook, other << 8 | p[5]);
    if (number) return number;
    s->loops[t.hook] = 1;
    attach(&t, t.carrier);
    return KNITOUT_DONE;
}

/* Reads a plated stitch. */
static inline int read_plated(struct state *s, const uint8_t *p, struct stitch *t, struct carrier **second)
{
    int number = read_stitch(s, p, t);
    if (number) return number;
    unsigned carrier = p[5] - 1u;
    if (carrier >= KNITOUT_CARRIERS) return KNITOUT_FIELD_RANGE;
    if (p[4] == p[5]) return KNITOUT_YARN_TWICE;
    *second = &s->carriers[carrier];
    return KNITOUT_DONE;
}

/* What a plated stitch asks of its carriers: the smallest number that either gives. */
static inline int both_reach(const struct state *s, const struct stitch *t, const struct carrier *second)
{
    int slot = entry_slot(t), first_slot = t->carrier->slot, second_slot = second->slot;
    if (first_slot != slot || second_slot != slot)
        return first_slot == INACTIVE || second_slot == INACTIVE ? KNITOUT_NOT_IN : KNITOUT_WRONG_SLOT;
    int number = floats(s, t->carrier, t->column);
    return number ? number : floats(s, second, t->column);
}

/* The hook holds so many loops, both carriers are attached to it. */
static inline int attach_both(struct state *s, const struct stitch *t, struct carrier *second, int loops)
{
    s->loops[t->hook] = (uint8_t)loops;
    attach(t, t->carrier);
    attach(t, second);
    return KNITOUT_DONE;
}

static inline int plated_tuck(struct state *s, const uint8_t *p)
{
    struct stitch t;
    struct carrier *second;
    int number = read_plated(s, p, &t, &second);
    if (number) return number;
    number = both_reach(s, &t, second);
    if (number) return number;
    if (s->loops[t.hook] + PLATED_LOOPS > s->limit) return KNITOUT_HOOK_FULL;
    return attach_both(s, &t, second, s->loops[t.hook] + PLATED_LOOPS);
}

static inline int plated_knit(struct state *s, const uint8_t *p)
{
    struct stitch t;
    struct carrier *second;
    int number = read_plated(s, p, &t, &second);
    if (number) return number;
    number = both_reach(s, &t, second);
    if (number) return number;
    if (s->limit < PLATED_LOOPS) return KNITOUT_HOOK_FULL;
    return attach_both(s, &t, second, PLATED_LOOPS);
}

/* One record; its size goes to *size if its bytes are there. */
static inline int step(struct state *s, const uint8_t *p, ptrdiff_t left, int *size)
{
#define NEED(n) do { if (left < (n)) return KNITOUT_CUT_SHORT; *size = (n); } while (0)
    switch (p[0]) {
    case RACK: NEED(2); return rack(s, p);
    case DROP: NEED(3); return drop(s, p);
    case XFER: NEED(4); return xfer(s, p);
    case IN: NEED(5); return in(s, p);
    case OUT: NEED(5); return out(s, p);
    case MISS: NEED(5); return miss(s, p);
    case TUCK: NEED(5); return tuck(s, p);
    case KNIT: NEED(5); return knit(s, p);
    case SPLIT: NEED(6); return split(s, p);
    case PLATED_TUCK: NEED(6); return plated_tuck(s, p);
    case PLATED_KNIT: NEED(6); return plated_knit(s, p);
    default: return KNITOUT_UNKNOWN_KIND;
    }
#undef NEED
}

static void empty(struct state *s, int limit)
{
    memset(s, 0, sizeof *s);
    s->limit = limit;
    for (int i = 0; i < KNITOUT_CARRIERS; i++) {
        s->carriers[i].slot = INACTIVE;
        s->carriers[i].hook = UNATTACHED;
    }
}

uint64_t plain_run_at(uint8_t limit, const uint8_t *program, size_t length)
{
    if (!limit_in_range(limit)) return packed(KNITOUT_BAD_STATE, 0);
    if (length > KNITOUT_PROGRAM_MOST) return packed(KNITOUT_TOO_LONG, 0);
    struct state s;
    empty(&s, limit);
    const uint8_t *p = program, *end = program + length;
    while (p < end) {
        int size = 0;
        int number = step(&s, p, end - p, &size);
        if (number) return packed(number, (size_t)(p - program));
        p += size;
    }
    return KNITOUT_DONE;
}

uint64_t plain_run(const uint8_t *program, size_t length)
{
    return plain_run_at(KNITOUT_LIMIT_MOST, program, length);
}
