/* The run in plain C, written for speed: one state changed in place, one switch on the kind. */
#include "plain.h"

#include <string.h>

/* Outside the slots and the hooks 0 to 511, of which those from 256 on are the back bed's. */
enum { INACTIVE = -32768, UNATTACHED = -1, BACK_HOOK = 256 };

/* A hook is bed * 256 + needle, so that two bytes name it and a shift gives the bed. */
typedef struct {
    int slot;       /* or INACTIVE */
    int16_t hook;   /* of the attachment, or UNATTACHED */
    uint8_t side;   /* of the attachment: 0 left, 1 right */
} carrier;

typedef struct {
    int shift[2];   /* from needle to column: 0 on the front bed, the racking on the back */
    int limit;      /* of loops on a hook */
    uint8_t loops[512];
    carrier carriers[KNITOUT_CARRIERS];
} machine;

static inline int racking_of(const machine *s) { return s->shift[1]; }
static inline void set_racking(machine *s, int racking) { s->shift[1] = racking; }
static inline int hook_of(int bed, int needle) { return bed << 8 | needle; }
static inline int column_of(const machine *s, int bed, int needle) { return needle + s->shift[bed]; }

static inline int is_active(const carrier *c) { return c->slot != INACTIVE; }
static inline int is_parked_at(const carrier *c, int slot) { return c->slot == slot; }
static inline int is_attached(const carrier *c) { return c->hook != UNATTACHED; }
static inline int is_attached_back(const carrier *c) { return c->hook >= BACK_HOOK; }
static inline int is_attached_at(const carrier *c, int bed, int needle) { return c->hook == (int16_t)hook_of(bed, needle); }
static inline int bed_of(const carrier *c) { return c->hook >> 8; }
static inline int needle_of(const carrier *c) { return c->hook & 255; }
static inline int side_of(const carrier *c) { return c->side; }

static inline void park(carrier *c, int slot) { c->slot = slot; }
static inline void take_out(carrier *c) { *c = (carrier){ INACTIVE, UNATTACHED, 0 }; }
static inline void move_attachment(carrier *c, int bed, int needle) { c->hook = (int16_t)hook_of(bed, needle); }

static inline void attach(carrier *c, int slot, int right, int bed, int needle)
{
    c->slot = slot;
    c->hook = (int16_t)hook_of(bed, needle);
    c->side = (uint8_t)right;
}

#include "plain_steps.h"

static void empty(machine *s, int limit)
{
    memset(s, 0, sizeof *s);
    s->limit = limit;
    for (int i = 0; i < KNITOUT_CARRIERS; i++) take_out(&s->carriers[i]);
}

uint64_t plain_run_at(uint8_t limit, const uint8_t *program, size_t length)
{
    if (limit_is_out(limit)) return packed(KNITOUT_BAD_STATE, 0);
    if (length > KNITOUT_PROGRAM_MOST) return packed(KNITOUT_TOO_LONG, 0);
    machine s;
    empty(&s, limit);
    const uint8_t *p = program, *end = length ? program + length : program; /* which may be null */
    while (p < end) {
        size_t size = 0;
        int number = step(&s, p, (size_t)(end - p), &size);
        if (number) return packed(number, (size_t)(p - program));
        p += size;
    }
    return KNITOUT_DONE;
}

uint64_t plain_run(const uint8_t *program, size_t length)
{
    return plain_run_at(KNITOUT_LIMIT_MOST, program, length);
}
