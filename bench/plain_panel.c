/* The panel's services in plain C, written for speed: the lent state is looked at and changed in place. */
#include "plain_panel.h"

#include "kinds.h"

#include <string.h>

/* The fields of a record with a carrier, in range. */
struct stitch {
    int right, bed, needle, column;
    struct knitout_carrier *carrier;
};

static inline uint8_t greater(uint8_t a, uint8_t b) { return a > b ? a : b; }

/* Four windows of 128 hooks, which overlap by a few, cover the 500: a loop without a rest, fit for vectors. */
static inline int loops_in_range(const uint8_t *loops, int limit)
{
    enum { WINDOW = 128, APART = (KNITOUT_HOOKS - WINDOW) / 3 };
    uint8_t most = 0;
    for (int i = 0; i < WINDOW; i++) {
        uint8_t front = greater(loops[i], loops[i + APART]);
        uint8_t back = greater(loops[i + 2 * APART], loops[i + 3 * APART]);
        most = greater(most, greater(front, back));
    }
    return most <= limit;
}

/* Is every value in its range, and 0 where it has no meaning? */
static inline int carrier_in_range(const struct knitout_carrier *c)
{
    static const struct knitout_carrier inactive;
    if (c->active != 1) return memcmp(c, &inactive, sizeof *c) == 0;
    unsigned slot = (unsigned)(c->slot - KNITOUT_SLOT_LEAST);
    if (slot > KNITOUT_SLOT_MOST - KNITOUT_SLOT_LEAST) return 0;
    if (c->side != KNITOUT_LEFT && c->side != KNITOUT_RIGHT) return (c->side | c->bed | c->needle) == 0;
    return c->bed <= KNITOUT_BACK && c->needle < KNITOUT_NEEDLES;
}

static inline int carriers_in_range(const struct knitout_carrier *carriers)
{
    for (int i = 0; i < KNITOUT_CARRIERS; i++)
        if (!carrier_in_range(&carriers[i])) return 0;
    return 1;
}

static inline int racking_in_range(int racking)
{
    return KNITOUT_RACKING_LEAST <= racking && racking <= KNITOUT_RACKING_MOST;
}

static inline int in_range(const struct knitout_state *s)
{
    return racking_in_range(s->racking) && limit_in_range(s->limit) && carriers_in_range(s->carriers)
        && loops_in_range(s->loops, s->limit);
}

static inline int column_of(const struct knitout_state *s, int bed, int needle) { return needle + (s->racking & -bed); }

static inline int entry_slot(const struct stitch *t) { return t->column + (t->right ^ 1); }
static inline int exit_slot(const struct stitch *t) { return t->column + t->right; }

/* Does a rack stretch some yarn? Only those attached on the back bed: no other attachment moves. */
static inline int any_stretched(const struct knitout_state *s, int racking)
{
    for (const struct knitout_carrier *c = s->carriers; c < s->carriers + KNITOUT_CARRIERS; c++) {
        if (c->bed != KNITOUT_BACK) continue;
        if (stretches(c->needle + (c->side == KNITOUT_RIGHT) - c->slot, s->racking, racking)) return 1;
    }
    return 0;
}

static inline int rack(struct knitout_state *s, const uint8_t *p)
{
    int racking = (int8_t)p[1];
    if (!racking_in_range(racking)) return KNITOUT_FIELD_RANGE;
    if (any_stretched(s, racking)) return KNITOUT_STRETCHED;
    s->racking = (int8_t)racking;
    return KNITOUT_DONE;
}

static inline int drop(struct knitout_state *s, const uint8_t *p)
{
    if (p[1] > KNITOUT_BACK || p[2] >= KNITOUT_NEEDLES) return KNITOUT_FIELD_RANGE;
    s->loops[KNITOUT_HOOK(p[1], p[2])] = 0;
    return KNITOUT_DONE;
}

/* Moves loops and attachments to a needle of the other bed, if there is room. */
static inline int move(struct knitout_state *s, int bed, int needle, int other)
{
    uint8_t *from = &s->loops[KNITOUT_HOOK(bed, needle)], *to = &s->loops[KNITOUT_HOOK(bed ^ 1, other)];
    int loops = *from + *to;
    if (loops > s->limit) return KNITOUT_HOOK_FULL;
    *to = (uint8_t)loops;
    *from = 0;
    for (struct knitout_carrier *c = s->carriers; c < s->carriers + KNITOUT_CARRIERS; c++) {
        if (c->needle != needle || c->bed != bed || c->side == KNITOUT_UNATTACHED) continue;
        c->bed = (uint16_t)(bed ^ 1);
        c->needle = (uint16_t)other;
    }
    return KNITOUT_DONE;
}

static inline int xfer(struct knitout_state *s, const uint8_t *p)
{
    int bed = p[1], needle = p[2], other = p[3];
    if (bed > KNITOUT_BACK || needle >= KNITOUT_NEEDLES || other >= KNITOUT_NEEDLES) return KNITOUT_FIELD_RANGE;
    if (column_of(s, bed, needle) != column_of(s, bed ^ 1, other)) return KNITOUT_NOT_OPPOSITE;
    return move(s, bed, needle, other);
}

/* Reads direction, bed, needle and carrier. */
static inline int read_stitch(struct knitout_state *s, const uint8_t *p, struct stitch *t)
{
    unsigned carrier = p[4] - 1u;
    if ((p[1] | p[2]) > 1 || p[3] >= KNITOUT_NEEDLES || carrier >= KNITOUT_CARRIERS) return KNITOUT_FIELD_RANGE;
    t->right = p[1];
    t->bed = p[2];
    t->needle = p[3];
    t->column = column_of(s, t->bed, t->needle);
    t->carrier = &s->carriers[carrier];
    return KNITOUT_DONE;
}

/* Is the carrier parked at this slot? */
static inline int parked(const struct knitout_carrier *c, int slot)
{
    if (!c->active) return KNITOUT_NOT_IN;
    return c->slot == slot ? KNITOUT_DONE : KNITOUT_WRONG_SLOT;
}

static inline int in(const struct stitch *t)
{
    if (t->carrier->active) return KNITOUT_ALREADY_IN;
    t->carrier->active = 1;
    t->carrier->slot = (int16_t)entry_slot(t);
    return KNITOUT_DONE;
}

static inline int out(const struct stitch *t)
{
    int number = parked(t->carrier, exit_slot(t));
    if (number == KNITOUT_DONE) *t->carrier = (struct knitout_carrier){ 0 };
    return number;
}

static inline int miss(const struct stitch *t)
{
    int number = parked(t->carrier, entry_slot(t));
    if (number == KNITOUT_DONE) t->carrier->slot = (int16_t)exit_slot(t);
    return number;
}

/* What a stitch that forms a loop asks of the carrier: parked at the entry, no long float. */
static inline int reaches(const struct knitout_state *s, const struct stitch *t)
{
    const struct knitout_carrier *c = t->carrier;
    int number = parked(c, entry_slot(t));
    if (number || c->side == KNITOUT_UNATTACHED) return number;
    int distance = column_of(s, c->bed, c->needle) - t->column;
    if (distance < -KNITOUT_FLOAT_MOST || distance > KNITOUT_FLOAT_MOST) return KNITOUT_FLOAT_TOO_LONG;
    return KNITOUT_DONE;
}

/* The hook holds so many loops, the carrier is attached to it. */
static inline int attach(struct knitout_state *s, const struct stitch *t, int loops)
{
    s->loops[KNITOUT_HOOK(t->bed, t->needle)] = (uint8_t)loops;
    t->carrier->side = (uint8_t)(KNITOUT_LEFT + t->right);
    t->carrier->slot = (int16_t)exit_slot(t);
    t->carrier->bed = (uint16_t)t->bed;
    t->carrier->needle = (uint16_t)t->needle;
    return KNITOUT_DONE;
}

static inline int tuck(struct knitout_state *s, const struct stitch *t)
{
    int number = reaches(s, t), loops = s->loops[KNITOUT_HOOK(t->bed, t->needle)];
    if (number) return number;
    if (loops >= s->limit) return KNITOUT_HOOK_FULL;
    return attach(s, t, loops + 1);
}

static inline int knit(struct knitout_state *s, const struct stitch *t)
{
    int number = reaches(s, t);
    return number ? number : attach(s, t, 1);
}

static inline int split(struct knitout_state *s, const struct stitch *t, int other)
{
    if (other >= KNITOUT_NEEDLES) return KNITOUT_FIELD_RANGE;
    int number = reaches(s, t);
    if (number) return number;
    if (t->column != column_of(s, t->bed ^ 1, other)) return KNITOUT_NOT_OPPOSITE;
    number = move(s, t->bed, t->needle, other);
    return number ? number : attach(s, t, 1);
}

/* What a plated stitch asks of its carriers: of two numbers the smaller. */
static inline int both_reach(const struct knitout_state *s, const struct stitch *t, const struct stitch *second)
{
    int number = reaches(s, t), other = reaches(s, second);
    if (number && other) return number < other ? number : other;
    return number | other;
}

/* A plated tuck or knit, by the loops that the hook keeps. */
static inline int plated(struct knitout_state *s, const struct stitch *t, const uint8_t *p, int kept)
{
    unsigned carrier = p[5] - 1u;
    if (carrier >= KNITOUT_CARRIERS) return KNITOUT_FIELD_RANGE;
    if (p[4] == p[5]) return KNITOUT_YARN_TWICE;
    struct stitch second = *t;
    second.carrier = &s->carriers[carrier];
    int number = both_reach(s, t, &second);
    if (number) return number;
    if (kept + PLATED_LOOPS > s->limit) return KNITOUT_HOOK_FULL;
    attach(s, t, kept + PLATED_LOOPS);
    return attach(s, &second, kept + PLATED_LOOPS);
}

/* One record of a known kind, whose bytes are there. */
static inline int step(struct knitout_state *s, const uint8_t *p)
{
    if (p[0] == RACK) return rack(s, p);
    if (p[0] == DROP) return drop(s, p);
    if (p[0] == XFER) return xfer(s, p);
    struct stitch t;
    int number = read_stitch(s, p, &t);
    if (number) return number;
    switch (p[0]) {
    case IN: return in(&t);
    case OUT: return out(&t);
    case MISS: return miss(&t);
    case TUCK: return tuck(s, &t);
    case KNIT: return knit(s, &t);
    case SPLIT: return split(s, &t, p[5]);
    case PLATED_TUCK: return plated(s, &t, p, s->loops[KNITOUT_HOOK(t.bed, t.needle)]);
    default: return plated(s, &t, p, 0);
    }
}

/* The first record, if there is one. */
static inline int first_step(struct knitout_state *s, const uint8_t *bytes, size_t length)
{
    if (length == 0) return KNITOUT_CUT_SHORT;
    if (bytes[0] < RACK || bytes[0] >= KIND_LIMIT) return KNITOUT_UNKNOWN_KIND;
    return length < record_size[bytes[0]] ? KNITOUT_CUT_SHORT : step(s, bytes);
}

/* The first of eight hooks that holds a loop; x86-64 has it in the lowest byte that is not 0. */
static inline unsigned first_of(uint64_t hooks) { return (unsigned)__builtin_ctzll(hooks) / 8; }

/* The first hook that holds a loop, from f.0 up, eight at a time; the last eight overlap the others. KNITOUT_HOOKS if none. */
static inline unsigned first_loop(const uint8_t *loops)
{
    enum { WORD = sizeof(uint64_t), LAST = KNITOUT_HOOKS - WORD };
    uint64_t word;
    for (unsigned i = 0; i < LAST; i += WORD) {
        memcpy(&word, loops + i, WORD);
        if (word) return i + first_of(word);
    }
    memcpy(&word, loops + LAST, WORD);
    return word ? LAST + first_of(word) : KNITOUT_HOOKS;
}

/* Is a state in range the empty one, and how many hooks are looked at for that? */
static inline void decide_complete(const struct knitout_state *s, struct knitout_stepped *stepped)
{
    if (s->racking != 0) return;
    unsigned hook = first_loop(s->loops);
    stepped->looked = (uint16_t)(hook < KNITOUT_HOOKS ? hook + 1 : KNITOUT_HOOKS);
    if (hook < KNITOUT_HOOKS) return;
    for (int i = 0; i < KNITOUT_CARRIERS; i++)
        if (s->carriers[i].active) return;
    stepped->complete = 1;
}

struct knitout_stepped plain_step(struct knitout_state *state, const uint8_t *bytes, size_t length)
{
    if (!in_range(state)) return (struct knitout_stepped){ .number = KNITOUT_BAD_STATE };
    int number = first_step(state, bytes, length);
    struct knitout_stepped stepped = { .number = (uint8_t)number, .length = number ? 0 : record_size[bytes[0]] };
    decide_complete(state, &stepped);
    return stepped;
}

struct knitout_served plain_carriers(const struct knitout_state *state, struct knitout_carrier *list, size_t count)
{
    if (!in_range(state)) return (struct knitout_served){ .number = KNITOUT_BAD_STATE };
    if (count < KNITOUT_CARRIERS) return (struct knitout_served){ .number = KNITOUT_NO_ROOM };
    memcpy(list, state->carriers, sizeof state->carriers);
    return (struct knitout_served){ KNITOUT_DONE, KNITOUT_CARRIERS };
}
