/* The panel's services in plain C, written for speed: the lent state is looked at and changed in place. */
#include "plain.h"

#include <string.h>

typedef struct knitout_state machine;
typedef struct knitout_carrier carrier;

static inline int racking_of(const machine *s) { return s->racking; }
static inline void set_racking(machine *s, int racking) { s->racking = (int8_t)racking; }
static inline int hook_of(int bed, int needle) { return KNITOUT_HOOK(bed, needle); }
static inline int column_of(const machine *s, int bed, int needle) { return needle + (s->racking & -bed); }

static inline int is_active(const carrier *c) { return c->active; }
static inline int is_parked_at(const carrier *c, int slot) { return c->active && c->slot == slot; }
static inline int is_attached(const carrier *c) { return c->side != KNITOUT_UNATTACHED; }
static inline int is_attached_back(const carrier *c) { return c->bed == KNITOUT_BACK; }
static inline int bed_of(const carrier *c) { return c->bed; }
static inline int needle_of(const carrier *c) { return c->needle; }
static inline int side_of(const carrier *c) { return c->side == KNITOUT_RIGHT; }

static inline int is_attached_at(const carrier *c, int bed, int needle)
{
    return c->needle == needle && c->bed == bed && is_attached(c);
}

static inline void park(carrier *c, int slot)
{
    c->active = 1;
    c->slot = (int16_t)slot;
}

static inline void take_out(carrier *c) { *c = (carrier){ 0 }; }

static inline void move_attachment(carrier *c, int bed, int needle)
{
    c->bed = (uint16_t)bed;
    c->needle = (uint16_t)needle;
}

static inline void attach(carrier *c, int slot, int right, int bed, int needle)
{
    c->side = (uint8_t)(KNITOUT_LEFT + right);
    c->slot = (int16_t)slot;
    move_attachment(c, bed, needle);
}

#include "plain_steps.h"

static inline uint8_t most_of(uint8_t a, uint8_t b) { return a > b ? a : b; }

/* Four windows of 128 hooks, which overlap by a few, cover the 500: a loop without a rest, fit for vectors. */
static inline int loops_in_range(const uint8_t *loops, int limit)
{
    enum { WINDOW = 128, APART = (KNITOUT_HOOKS - WINDOW) / 3 };
    uint8_t most = 0;
    for (int i = 0; i < WINDOW; i++) {
        uint8_t front = most_of(loops[i], loops[i + APART]);
        uint8_t back = most_of(loops[i + 2 * APART], loops[i + 3 * APART]);
        most = most_of(most, most_of(front, back));
    }
    return most <= limit;
}

/* Is every value in its range, and 0 where it has no meaning? */
static inline int lent_in_range(const carrier *c)
{
    static const carrier inactive;
    if (c->active != 1) return memcmp(c, &inactive, sizeof *c) == 0;
    unsigned slot = (unsigned)(c->slot - KNITOUT_SLOT_LEAST);
    if (slot > KNITOUT_SLOT_MOST - KNITOUT_SLOT_LEAST) return 0;
    if (c->side != KNITOUT_LEFT && c->side != KNITOUT_RIGHT) return (c->side | c->bed | c->needle) == 0;
    return c->bed <= KNITOUT_BACK && c->needle < KNITOUT_NEEDLES;
}

static inline int carriers_in_range(const carrier *carriers)
{
    for (int i = 0; i < KNITOUT_CARRIERS; i++)
        if (!lent_in_range(&carriers[i])) return 0;
    return 1;
}

static inline int in_range(const machine *s)
{
    return !racking_is_out(s->racking) && !limit_is_out(s->limit) && carriers_in_range(s->carriers)
        && loops_in_range(s->loops, s->limit);
}

/* The first of eight hooks that holds a loop; x86-64 has it in the lowest byte that is not 0. */
static inline unsigned first_of(uint64_t hooks) { return (unsigned)__builtin_ctzll(hooks) / 8; }

/* The first hook with a loop, from f.0 up, eight at a time; the last eight overlap the others. KNITOUT_HOOKS if none. */
static inline unsigned first_loop(const uint8_t *loops)
{
    enum { WORD = sizeof(uint64_t), LAST = KNITOUT_HOOKS - WORD };
    uint64_t word;
    for (unsigned i = 0; i < LAST; i += WORD) {
        memcpy(&word, loops + i, WORD);
        if (word) return i + first_of(word);
    }
    memcpy(&word, loops + LAST, WORD);
    return word ? LAST + first_of(word) : KNITOUT_HOOKS;
}

/* Is a state in range the empty one, and how many hooks are looked at for that? */
static inline void decide_complete(const machine *s, struct knitout_stepped *stepped)
{
    if (s->racking != 0) return;
    unsigned hook = first_loop(s->loops);
    stepped->looked = (uint16_t)(hook < KNITOUT_HOOKS ? hook + 1 : KNITOUT_HOOKS);
    if (hook < KNITOUT_HOOKS) return;
    for (int i = 0; i < KNITOUT_CARRIERS; i++)
        if (s->carriers[i].active) return;
    stepped->complete = 1;
}

struct knitout_stepped plain_step(struct knitout_state *state, const uint8_t *bytes, size_t length)
{
    if (!in_range(state)) return (struct knitout_stepped){ .number = KNITOUT_BAD_STATE };
    size_t size = 0;
    int number = length == 0 ? KNITOUT_CUT_SHORT : step(state, bytes, length, &size);
    struct knitout_stepped stepped = { .number = (uint8_t)number, .length = number ? 0 : size };
    decide_complete(state, &stepped);
    return stepped;
}

struct knitout_served plain_carriers(const struct knitout_state *state, struct knitout_carrier *list, size_t count)
{
    if (!in_range(state)) return (struct knitout_served){ .number = KNITOUT_BAD_STATE };
    if (count < KNITOUT_CARRIERS) return (struct knitout_served){ .number = KNITOUT_NO_ROOM };
    memcpy(list, state->carriers, sizeof state->carriers);
    return (struct knitout_served){ KNITOUT_DONE, KNITOUT_CARRIERS };
}
