/* Builds the states, records and lists on which the panel's services are measured. */
#include "panel.h"

#include "plain_panel.h"

#include <stdlib.h>
#include <string.h>

/* The inputs for complete alone, and those with ten carriers attached at one needle. */
enum { LOOKED = 7, TEN = 5 };

/* A program before its last record of a kind. */
struct moment {
    const struct program *program;
    struct knitout_state state;
    size_t place;
};

static const struct knitout_state empty = KNITOUT_EMPTY(KNITOUT_LIMIT_MOST);
static struct step_input step;
static struct list_input list;

int states_agree(const struct knitout_state *a, const struct knitout_state *b)
{
    return memcmp(a, b, sizeof *a) == 0;
}

int is_empty(const struct knitout_state *state)
{
    struct knitout_state none = empty;
    none.limit = state->limit;
    return states_agree(state, &none);
}

unsigned count_looked(const struct knitout_state *state)
{
    unsigned hook = 0;
    if (state->racking != 0) return 0;
    while (hook < KNITOUT_HOOKS && state->loops[hook] == 0) hook++;
    return hook == KNITOUT_HOOKS ? hook : hook + 1;
}

/* Steps through a program, up to a refused record, and keeps, for each kind from the first one given, the moment before
   its last record. */
static void keep_moments(struct moment *moments, const struct program *p, int first)
{
    struct knitout_state state = empty;
    for (size_t at = 0; at < p->length;) {
        if (p->bytes[at] >= first) moments[p->bytes[at]] = (struct moment){ p, state, at };
        struct knitout_stepped stepped = plain_step(&state, p->bytes + at, p->length - at);
        if (stepped.number) return;
        at += stepped.length;
    }
}

/* Of the mixed program; of plated stitches, which it has none of, in the one with these. */
static const struct moment *find_moments(void)
{
    static struct moment moments[KIND_LIMIT];
    if (moments[KNIT].program) return moments;
    keep_moments(moments, find_program("mixed"), RACK);
    keep_moments(moments, find_program("plated-mix"), PLATED_TUCK);
    return moments;
}

/* Of the last rack of a program of racks with ten attachments on the back bed. */
static const struct moment *find_rack(const char *program)
{
    static struct moment moments[KIND_LIMIT];
    keep_moments(moments, find_program(program), RACK);
    return &moments[RACK];
}

static void one_step(const char *name, const struct moment *moment, unsigned number)
{
    step.name = name;
    step.state = moment->state;
    step.bytes = moment->program->bytes;
    step.length = moment->program->length;
    step.steps = 1;
    step.places[0] = (uint16_t)moment->place;
    step.number = number;
    step.served = number ? 0 : record_size[step.bytes[moment->place]];
}

/* The same record with one byte altered, which is refused. */
static void altered_step(const char *name, const struct moment *moment, unsigned number, int at, uint8_t value)
{
    static uint8_t record[KNITOUT_RECORD_MOST];
    one_step(name, moment, number);
    step.length = record_size[step.bytes[moment->place]];
    memcpy(record, step.bytes + moment->place, step.length);
    record[at] = value;
    step.bytes = record;
    step.places[0] = 0;
}

/* Every record of the program, from the empty state. */
static void step_through(const struct program *p)
{
    step.name = p->name;
    step.state = empty;
    step.bytes = p->bytes;
    step.length = p->length;
    step.steps = p->records;
    size_t at = 0;
    for (unsigned i = 0; i < p->records; i++) {
        step.places[i] = (uint16_t)at;
        at += record_size[p->bytes[at]];
    }
    step.served = at;
}

static void make_foul(struct knitout_state *state) { state->carriers[KNITOUT_CARRIERS - 1].needle = KNITOUT_NEEDLES; }

/* The refused steps: a knit with the carrier that the last in brings in, before it does; the last plated knit with its
   first carrier twice; a rack that stretches the tenth yarn; three foul states. */
static void build_refused(int i, const struct moment *moments)
{
    const struct moment *plated = &moments[PLATED_KNIT];
    if (i == 0) {
        altered_step("refused-7", &moments[IN], KNITOUT_NOT_IN, 0, KNIT);
    } else if (i == 1) {
        altered_step("refused-16", plated, KNITOUT_YARN_TWICE, 5, plated->program->bytes[plated->place + 4]);
    } else if (i == 2) {
        one_step("refused-17", find_rack("refused-17"), KNITOUT_STRETCHED);
    } else if (i == 3) {
        one_step("refused-15-racking", &moments[KNIT], KNITOUT_BAD_STATE);
        step.state.racking = KNITOUT_RACKING_MOST + 1;
    } else if (i == 4) {
        one_step("refused-15-limit", &moments[KNIT], KNITOUT_BAD_STATE);
        step.state.limit = KNITOUT_LIMIT_LEAST - 1;
    } else {
        one_step("refused-15-carrier-10", &moments[KNIT], KNITOUT_BAD_STATE);
        make_foul(&step.state);
    }
}

/* A drop of one of two loops, or of the only one: complete is decided by the first hook that is left with a loop. */
static void build_looked(int i)
{
    enum { DROPPED = KNITOUT_NEEDLES - 2 };
    static const uint8_t drop[] = { DROP, KNITOUT_FRONT, DROPPED };
    static const struct { const char *name; unsigned looked; int loops; } left[LOOKED] = {
        { "first-hook", 1, 1 }, { "last-hook", KNITOUT_HOOKS, 1 }, { "empty", KNITOUT_HOOKS, 0 },
        { "hook-31", 31, 1 }, { "hook-62", 62, 1 }, { "hook-125", 125, 1 }, { "hook-250", 250, 1 },
    };
    step = (struct step_input){ .name = left[i].name, .state = empty, .bytes = drop, .length = sizeof drop, .steps = 1,
                                .served = sizeof drop };
    step.state.loops[DROPPED] = 1;
    step.state.loops[left[i].looked - 1] = (uint8_t)left[i].loops;
}

/* The dearest found: ten carriers attached at one needle, and a step after which no hook holds a loop, or the last alone. */
static void build_ten(int i)
{
    enum { MIDDLE = 100, LAST = KNITOUT_NEEDLES - 1, AWAY = 30 };
    static const struct {
        const char *name;
        struct knitout_carrier carrier;
        int8_t racking;
        uint8_t record[KNITOUT_RECORD_MOST];
        uint16_t loop; /* the hook of the only loop before the step; KNITOUT_HOOKS: none */
    } ten[TEN] = {
        { "rack-nearer", { 1, KNITOUT_RIGHT, MIDDLE + 1 - AWAY, KNITOUT_BACK, MIDDLE }, KNITOUT_RACKING_MOST, { RACK, 0 },
          KNITOUT_HOOKS },
        { "xfer-ten", { 1, KNITOUT_RIGHT, MIDDLE + 1, KNITOUT_FRONT, MIDDLE }, 0, { XFER, KNITOUT_FRONT, MIDDLE, MIDDLE },
          KNITOUT_HOOKS - 1 },
        { "drop-ten", { 1, KNITOUT_RIGHT, MIDDLE + 1, KNITOUT_FRONT, MIDDLE }, 0, { DROP, KNITOUT_FRONT, MIDDLE }, MIDDLE },
        { "plated-last", { 1, KNITOUT_RIGHT, LAST, KNITOUT_BACK, LAST - 1 }, 0, { PLATED_KNIT, RIGHT, KNITOUT_BACK, LAST, 1, 2 },
          KNITOUT_HOOKS },
        { "split-last", { 1, KNITOUT_LEFT, LAST, KNITOUT_BACK, LAST }, 0, { SPLIT, RIGHT, KNITOUT_BACK, LAST, 1, LAST },
          KNITOUT_HOOKS },
    };
    step = (struct step_input){ .name = ten[i].name, .state = empty, .bytes = ten[i].record, .length = KNITOUT_RECORD_MOST,
                                .steps = 1, .served = record_size[ten[i].record[0]] };
    step.state.racking = ten[i].racking;
    for (int k = 0; k < KNITOUT_CARRIERS; k++) step.state.carriers[k] = ten[i].carrier;
    if (ten[i].loop < KNITOUT_HOOKS) step.state.loops[ten[i].loop] = 1;
}

/* How many of the steps leave the empty state, by its bytes, and the hooks looked at; neither of a state out of range. */
static void count_complete(void)
{
    struct knitout_state state = step.state;
    if (step.number == KNITOUT_BAD_STATE) return;
    for (unsigned i = 0; i < step.steps; i++) {
        plain_step(&state, step.bytes + step.places[i], step.length - step.places[i]);
        step.complete += is_empty(&state);
        step.looked += count_looked(&state);
    }
}

const struct step_input *build_step(int i)
{
    const struct moment *moments = find_moments();
    step = (struct step_input){ 0 };
    if (i < PLATED_KNIT) one_step(kind_name(i + 1), &moments[i + 1], KNITOUT_DONE);
    else if (i == PLATED_KNIT) step_through(find_program("mixed"));
    else if (i == PLATED_KNIT + 1) step_through(find_program("plated-mix"));
    else if (i == PLATED_KNIT + 2) one_step("rack-ten", find_rack("rack-ten"), KNITOUT_DONE);
    else if (i < PLATED_KNIT + 3 + LOOKED) build_looked(i - (PLATED_KNIT + 3));
    else if (i < PLATED_KNIT + 3 + LOOKED + TEN) build_ten(i - (PLATED_KNIT + 3 + LOOKED));
    else build_refused(i - (PLATED_KNIT + 3 + LOOKED + TEN), moments);
    count_complete();
    return &step;
}

const struct list_input *build_list(int i)
{
    static const struct list_input lists[LIST_INPUTS] = {
        { .name = "ten", .count = 10, .served = 10 },
        { .name = "twelve", .count = 12, .served = 10 },
        { .name = "refused-2", .count = 9, .number = KNITOUT_NO_ROOM },
        { .name = "refused-15-carrier-10", .count = 10, .number = KNITOUT_BAD_STATE },
    };
    list = lists[i];
    list.state = find_moments()[KNIT].state;
    if (list.number == KNITOUT_BAD_STATE) make_foul(&list.state);
    return &list;
}
