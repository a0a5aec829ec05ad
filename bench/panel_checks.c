/* Checks that the library's panel services and plain C's agree on generated states, records and lists. */
#include "panel.h"

#include "plain_panel.h"

#include <stdio.h>
#include <string.h>

enum { GENERATED = 24, GENERATED_LENGTH = 2048, ALTERED = 4, PLATED = 6, RACKS = 4, ENTRIES = 12, PAINT = 0x5a };

/* Values put into each byte of a state, and into slots, beds and needles, in and out of ranges. */
static const uint8_t byte_values[] = { 0, 1, 2, 3, 4, 5, 6, 7, 8, 9, 127, 128, 247, 248, 249, 250, 255 };
static const uint16_t word_values[] = { 0, 1, 2, 249, 250, 256, 257, 258, 259, 512, 65527, 65528, 65535 };
enum { BYTES = sizeof byte_values, WORDS = sizeof word_values / sizeof word_values[0] };

/* How often each number was given, by the state's limit; and with complete; and how often so many hooks were looked at. */
static unsigned seen[UINT8_MAX + 1][KNITOUT_STRETCHED + 1], seen_complete[UINT8_MAX + 1][KNITOUT_STRETCHED + 1],
    seen_looked[KNITOUT_HOOKS + 1];

static int differ(const char *what, struct knitout_stepped library, struct knitout_stepped plain)
{
    fprintf(stderr, "bench: generated %s: library gives %u, complete %u, looked %u and %lu, plain C %u, %u, %u and %lu, or "
            "contents differ\n", what, library.number, library.complete, library.looked, (unsigned long)library.length,
            plain.number, plain.complete, plain.looked, (unsigned long)plain.length);
    return 1;
}

/* One step by both versions; the state after it goes to *after, which may be the state itself. */
static int step_differs(const struct knitout_state *state, const uint8_t *bytes, size_t length,
                        struct knitout_state *after)
{
    struct knitout_state before = *state, other = *state;
    *after = *state;
    struct knitout_stepped library = knitout_step(&other, bytes, length), plain = plain_step(after, bytes, length);
    int agree = library.number == plain.number && library.length == plain.length && states_agree(&other, after);
    if (plain.number && !states_agree(&before, after)) agree = 0;
    int complete = plain.number != KNITOUT_BAD_STATE && is_empty(after);
    unsigned looked = plain.number != KNITOUT_BAD_STATE ? count_looked(after) : 0;
    if (library.complete != complete || plain.complete != complete) agree = 0;
    if (!agree || library.looked != looked || plain.looked != looked) return differ("step", library, plain);
    seen[before.limit][plain.number]++;
    seen_complete[before.limit][plain.number] += complete;
    seen_looked[looked]++;
    return 0;
}

/* One list by both versions; entries that are not lent must keep their contents, too. */
static int list_differs(const struct knitout_state *state, size_t count)
{
    struct knitout_carrier of_library[ENTRIES], of_plain[ENTRIES];
    memset(of_library, PAINT, sizeof of_library);
    memset(of_plain, PAINT, sizeof of_plain);
    struct knitout_served library = knitout_carriers(state, of_library, count);
    struct knitout_served plain = plain_carriers(state, of_plain, count);
    int agree = library.number == plain.number && library.length == plain.length
        && memcmp(of_library, of_plain, sizeof of_plain) == 0;
    if (!agree) return differ("list", (struct knitout_stepped){ .number = library.number, .length = library.length },
                              (struct knitout_stepped){ .number = plain.number, .length = plain.length });
    seen[state->limit][plain.number]++;
    return 0;
}

static int all_counts_differ(const struct knitout_state *state)
{
    for (size_t count = 0; count <= ENTRIES; count++)
        if (list_differs(state, count)) return 1;
    return 0;
}

/* Another needle for a carrier's attachment. */
static void move_attachment(struct knitout_state *state, int k, uint32_t *seed)
{
    struct knitout_carrier *c = &state->carriers[k - 1];
    if (c->side != KNITOUT_UNATTACHED) c->needle = (uint16_t)choose_below(seed, KNITOUT_NEEDLES);
}

/* The record's hook with other loops, up to one over the limit, and its carriers attached elsewhere: full hooks, long
   floats. */
static int stray_differs(const struct knitout_state *state, const uint8_t *bytes, size_t size, uint32_t *seed)
{
    struct knitout_state stray = *state, after;
    const uint8_t *at = bytes + 1 + (bytes[0] >= IN);
    if (bytes[0] != RACK) stray.loops[KNITOUT_HOOK(at[0], at[1])] = (uint8_t)choose_below(seed, state->limit + 2u);
    if (step_differs(&stray, bytes, size, &after)) return 1;
    if (bytes[0] < IN) return 0;
    move_attachment(&stray, bytes[4], seed);
    if (step_differs(&stray, bytes, size, &after)) return 1;
    if (bytes[0] < PLATED_TUCK) return 0;
    move_attachment(&stray, bytes[5], seed);
    return step_differs(&stray, bytes, size, &after);
}

/* Plated stitches where a carrier waits, with any two carriers, in range or not: one yarn twice, and 7, 8 and 9 by
   either. */
static int plated_differ(const struct knitout_state *state, uint32_t *seed)
{
    for (int i = 0; i < PLATED; i++) {
        unsigned first = choose_below(seed, KNITOUT_CARRIERS + 2), second = choose_below(seed, KNITOUT_CARRIERS + 2);
        int right = (int)choose_below(seed, 2), back = (int)choose_below(seed, 2);
        int column = state->carriers[choose_below(seed, KNITOUT_CARRIERS)].slot - !right;
        int needle = back ? column - state->racking : column;
        if (needle < 0) continue;
        uint8_t record[] = { (uint8_t)(PLATED_TUCK + choose_below(seed, 2)), (uint8_t)right, (uint8_t)back,
                             (uint8_t)needle, (uint8_t)first, (uint8_t)second };
        struct knitout_state after;
        if (step_differs(state, record, sizeof record, &after)) return 1;
    }
    return 0;
}

/* Racks where a carrier is parked some 20 slots from its attachment, to the left or to the right. */
static int racks_differ(const struct knitout_state *state, uint32_t *seed)
{
    for (int i = 0; i < RACKS; i++) {
        struct knitout_state parked = *state, after;
        struct knitout_carrier *c = &parked.carriers[choose_below(seed, KNITOUT_CARRIERS)];
        int apart = KNITOUT_STRETCH_MOST - 2 + (int)choose_below(seed, 5);
        int slot = c->needle + (c->bed ? state->racking : 0) + (choose_below(seed, 2) ? apart : -apart);
        uint8_t rack[] = { RACK, (uint8_t)(choose_below(seed, 17) - 8u) };
        if (c->active && KNITOUT_SLOT_LEAST <= slot && slot <= KNITOUT_SLOT_MOST) c->slot = (int16_t)slot;
        if (step_differs(&parked, rack, sizeof rack, &after)) return 1;
    }
    return 0;
}

/* Records like the next one, with one byte altered and now and then cut short. */
static int altered_differ(const struct knitout_state *state, const uint8_t *bytes, size_t size, uint32_t *seed)
{
    for (int i = 0; i < ALTERED; i++) {
        uint8_t record[KNITOUT_RECORD_MOST] = { 0 };
        struct knitout_state after;
        memcpy(record, bytes, size);
        uint8_t *at = &record[choose_below(seed, (unsigned)size)];
        *at = (uint8_t)(choose_below(seed, 2) ? *at + 1u : choose_below(seed, 256));
        size_t length = choose_below(seed, 16) ? sizeof record : choose_below(seed, 6);
        if (step_differs(state, record, length, &after)) return 1;
    }
    return 0;
}

/* Steps through a program from the empty state given, with altered records in each state; leaves the final state. */
static int program_differs(const struct program *p, uint32_t seed, struct knitout_state *state)
{
    for (size_t at = 0; at < p->length;) {
        size_t size = record_size[p->bytes[at]];
        if (altered_differ(state, p->bytes + at, size, &seed)) return 1;
        if (stray_differs(state, p->bytes + at, size, &seed) || plated_differ(state, &seed)) return 1;
        if (racks_differ(state, &seed)) return 1;
        if (step_differs(state, p->bytes + at, p->length - at, state)) return 1;
        at += size;
    }
    return 0;
}

/* The final state of a generated program, at each limit in turn; 1 if the versions differ on the way. */
static int generate(uint32_t seed, struct knitout_state *state)
{
    static struct program program;
    static const struct knitout_state empty = KNITOUT_EMPTY(KNITOUT_LIMIT_LEAST);
    *state = empty;
    state->limit = (uint8_t)(KNITOUT_LIMIT_LEAST + seed % KNITOUT_LIMIT_MOST);
    build_generated(&program, GENERATED_LENGTH, state->limit, seed);
    return program_differs(&program, seed, state);
}

/* A state with one value altered, by a step and by a list of ten. */
static int altered_state_differs(const struct knitout_state *state, size_t at, const void *value, size_t size)
{
    static const uint8_t record[] = { RACK, 3 };
    struct knitout_state altered = *state, after;
    memcpy((uint8_t *)&altered + at, value, size);
    return step_differs(&altered, record, sizeof record, &after) || list_differs(&altered, KNITOUT_CARRIERS);
}

static int altered_bytes_differ(const struct knitout_state *state)
{
    for (size_t i = 0; i < sizeof *state * BYTES; i++)
        if (altered_state_differs(state, i / BYTES, &byte_values[i % BYTES], 1)) return 1;
    return 0;
}

/* Four words a carrier: active and side, slot, bed, needle. */
static int altered_words_differ(const struct knitout_state *state)
{
    for (size_t i = 0; i < KNITOUT_CARRIERS * 4 * WORDS; i++) {
        size_t at = offsetof(struct knitout_state, carriers) + i / WORDS * 2;
        if (altered_state_differs(state, at, &word_values[i % WORDS], 2)) return 1;
    }
    return 0;
}

static int altered_states_differ(const struct knitout_state *state)
{
    return altered_bytes_differ(state) || altered_words_differ(state);
}

/* A full hook, each in turn, and then a loop on another, too: no record, and the drop that empties the first. */
static int one_loop_differs(const struct knitout_state *empty, uint32_t *seed)
{
    for (unsigned hook = 0; hook < KNITOUT_HOOKS; hook++) {
        struct knitout_state state = *empty, after;
        const uint8_t drop[] = { DROP, hook >= KNITOUT_NEEDLES, (uint8_t)(hook % KNITOUT_NEEDLES) };
        state.loops[hook] = empty->limit;
        if (step_differs(&state, NULL, 0, &after) || step_differs(&state, drop, sizeof drop, &after)) return 1;
        state.loops[choose_below(seed, KNITOUT_HOOKS)] = 1;
        if (step_differs(&state, drop, sizeof drop, &after)) return 1;
    }
    return 0;
}

/* A racking alone and a rack back to 0; a carrier alone and its out. */
static int one_value_differs(const struct knitout_state *empty)
{
    static const uint8_t back[] = { RACK, 0 };
    struct knitout_state after;
    for (int racking = KNITOUT_RACKING_LEAST - 1; racking <= KNITOUT_RACKING_MOST + 1; racking++) {
        struct knitout_state state = *empty;
        state.racking = (int8_t)racking;
        if (step_differs(&state, NULL, 0, &after) || step_differs(&state, back, sizeof back, &after)) return 1;
    }
    for (uint8_t k = 1; k <= KNITOUT_CARRIERS; k++) {
        struct knitout_state state = *empty;
        const uint8_t out[] = { OUT, LEFT, KNITOUT_FRONT, 0, k };
        state.carriers[k - 1].active = 1;
        if (step_differs(&state, NULL, 0, &after) || step_differs(&state, out, sizeof out, &after)) return 1;
    }
    return 0;
}

/* Records that the empty state refuses or that leave it empty. */
static int no_value_differs(const struct knitout_state *empty)
{
    static const uint8_t records[][KNITOUT_RECORD_MOST] = {
        { RACK, 0 }, { DROP, 0, 0 }, { XFER, 0, 9, 9 }, { 0 }, { KIND_LIMIT }, { RACK, 9 }, { KNIT, RIGHT, 0, 0, 1 },
        { XFER, 0, 9, 8 }, { PLATED_KNIT, RIGHT, 0, 0, 1, 1 }
    };
    struct knitout_state after;
    for (size_t i = 0; i < sizeof records / sizeof records[0]; i++)
        for (size_t length = 0; length <= KNITOUT_RECORD_MOST; length++)
            if (step_differs(empty, records[i], length, &after)) return 1;
    return 0;
}

/* States that are empty or nearly so, at limits in range and out of it. */
static int nearly_empty_differ(uint32_t seed)
{
    for (int i = 0; i < LIMITS; i++) {
        struct knitout_state empty = KNITOUT_EMPTY(limits[i]);
        if (one_loop_differs(&empty, &seed) || one_value_differs(&empty) || no_value_differs(&empty)) return 1;
    }
    return 0;
}

/* Was complete never said, at some limit, with a number that leaves a state empty? */
static int complete_not_seen(void)
{
    static const uint8_t numbers[] = { KNITOUT_DONE, KNITOUT_UNKNOWN_KIND, KNITOUT_CUT_SHORT, KNITOUT_FIELD_RANGE,
                                       KNITOUT_NOT_IN, KNITOUT_NOT_OPPOSITE, KNITOUT_YARN_TWICE };
    for (unsigned limit = KNITOUT_LIMIT_LEAST; limit <= KNITOUT_LIMIT_MOST; limit++)
        for (size_t i = 0; i < sizeof numbers; i++) {
            if (seen_complete[limit][numbers[i]]) continue;
            fprintf(stderr, "bench: generated step: %u was never given with complete at limit %u\n", numbers[i], limit);
            return 1;
        }
    return 0;
}

/* Was some count of hooks never given? */
static int looked_not_seen(void)
{
    for (unsigned looked = 0; looked <= KNITOUT_HOOKS; looked++) {
        if (seen_looked[looked]) continue;
        fprintf(stderr, "bench: generated step: %u hooks were never looked at\n", looked);
        return 1;
    }
    return 0;
}

/* Was a number never given, at some limit, that the service may give? */
static int not_seen(const char *what, unsigned first, unsigned last)
{
    for (unsigned limit = KNITOUT_LIMIT_LEAST; limit <= KNITOUT_LIMIT_MOST; limit++)
        for (unsigned number = first; number <= last; number++) {
            if (seen[limit][number]) continue;
            fprintf(stderr, "bench: generated %s: number %u was never given at limit %u\n", what, number, limit);
            return 1;
        }
    return 0;
}

int generated_steps_differ(void)
{
    memset(seen, 0, sizeof seen);
    for (uint32_t seed = 1; seed <= GENERATED; seed++) {
        struct knitout_state state;
        if (generate(seed, &state)) return 1;
    }
    if (nearly_empty_differ(GENERATED) || complete_not_seen() || looked_not_seen()) return 1;
    return not_seen("step", KNITOUT_DONE, KNITOUT_DONE) || not_seen("step", KNITOUT_UNKNOWN_KIND, KNITOUT_HOOK_FULL)
        || not_seen("step", KNITOUT_BAD_STATE, KNITOUT_STRETCHED);
}

int generated_lists_differ(void)
{
    memset(seen, 0, sizeof seen);
    for (uint32_t seed = 1; seed <= GENERATED; seed++) {
        struct knitout_state state;
        if (generate(seed, &state) || all_counts_differ(&state) || altered_states_differ(&state)) return 1;
    }
    return not_seen("list", KNITOUT_NO_ROOM, KNITOUT_NO_ROOM) || not_seen("list", KNITOUT_BAD_STATE, KNITOUT_BAD_STATE);
}
