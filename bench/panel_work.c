/* The panel's services as measured work: all inputs through the library and through plain C. */
#include "panel.h"
#include "plain_panel.h"
#include "work.h"

#include <stdio.h>
#include <string.h>

typedef struct knitout_stepped (*step_function)(struct knitout_state *state, const uint8_t *bytes, size_t length);
typedef struct knitout_served (*carriers_function)(const struct knitout_state *state, struct knitout_carrier *list,
                                                   size_t count);

enum { ENTRIES = 12, PAINT = 0xa5 };

/* What is lent to a version, and what it answers: all numbers together, completes, hooks looked at and lengths added. */
struct lent {
    _Alignas(PAGE) struct knitout_state state;
    _Alignas(LINE) struct knitout_carrier list[ENTRIES];
    unsigned numbers, complete, looked;
    size_t served;
};

static struct lent lent[VERSIONS];
static const struct step_input *step_in;
static const struct list_input *list_in;

static struct knitout_stepped step_nothing(struct knitout_state *state, const uint8_t *bytes, size_t length)
{
    (void)state, (void)bytes, (void)length;
    return (struct knitout_stepped){ 0 };
}

static struct knitout_served carriers_nothing(const struct knitout_state *state, struct knitout_carrier *list,
                                              size_t count)
{
    (void)state, (void)list, (void)count;
    return (struct knitout_served){ 0, 0 };
}

static const step_function steps[VERSIONS] = { step_nothing, knitout_step, plain_step };
static const carriers_function lists[VERSIONS] = { carriers_nothing, knitout_carriers, plain_carriers };

/* Does a version's answer differ from the expected one? */
static int answer_differs(const char *entry, const char *name, unsigned number, unsigned complete, unsigned looked,
                          size_t served)
{
    for (int v = LIBRARY; v <= PLAIN; v++) {
        const struct lent *l = &lent[v];
        if (l->numbers == number && l->complete == complete && l->looked == looked && l->served == served) continue;
        fprintf(stderr, "bench: %s %s: %s gives %u, complete %u, looked %u and %lu, expected %u, %u, %u and %lu\n", entry,
                name, v == LIBRARY ? "library" : "plain C", l->numbers, l->complete, l->looked, (unsigned long)l->served,
                number, complete, looked, (unsigned long)served);
        return 1;
    }
    return 0;
}

static int contents_differ(const char *entry, const char *name)
{
    if (states_agree(&lent[LIBRARY].state, &lent[PLAIN].state)
        && memcmp(lent[LIBRARY].list, lent[PLAIN].list, sizeof lent[PLAIN].list) == 0) return 0;
    fprintf(stderr, "bench: %s %s: state or list differs\n", entry, name);
    return 1;
}

static void prepare(enum version v, const struct knitout_state *state)
{
    lent[v].state = *state;
    memset(lent[v].list, PAINT, sizeof lent[v].list);
    lent[v].numbers = lent[v].complete = lent[v].looked = 0;
    lent[v].served = 0;
}

static int step_inputs(void) { return STEP_INPUTS; }

/* Name, steps, number, length, hooks looked at for complete. */
static void build_steps(int i, struct about *about)
{
    step_in = build_step(i);
    about->records = 10 * step_in->steps;
    about->timed = 1;
    snprintf(about->text, sizeof about->text, "%s %u %u %lu %u", step_in->name, step_in->steps, step_in->number,
             (unsigned long)step_in->served, step_in->looked);
}

static void prepare_steps(enum version v) { prepare(v, &step_in->state); }

static void call_steps(enum version v)
{
    for (unsigned i = 0; i < step_in->steps; i++) {
        size_t at = step_in->places[i];
        struct knitout_stepped stepped = steps[v](&lent[v].state, step_in->bytes + at, step_in->length - at);
        lent[v].numbers |= stepped.number;
        lent[v].complete += stepped.complete;
        lent[v].looked += stepped.looked;
        lent[v].served += stepped.length;
    }
}

/* The answer expected, the same state in both, and the old one if refused. */
static int steps_differ(void)
{
    if (answer_differs("step", step_in->name, step_in->number, step_in->complete, step_in->looked, step_in->served)) return 1;
    if (contents_differ("step", step_in->name)) return 1;
    if (step_in->number == KNITOUT_DONE || states_agree(&lent[PLAIN].state, &step_in->state)) return 0;
    fprintf(stderr, "bench: step %s: refused, but the state has changed\n", step_in->name);
    return 1;
}

const struct group step_group = { "step", step_inputs, build_steps, prepare_steps, call_steps, steps_differ,
                                  generated_steps_differ };

static int list_inputs(void) { return LIST_INPUTS; }

/* Name, lists, number, length. */
static void build_lists(int i, struct about *about)
{
    list_in = build_list(i);
    about->records = 10;
    about->timed = 1;
    snprintf(about->text, sizeof about->text, "%s 1 %u %lu", list_in->name, list_in->number,
             (unsigned long)list_in->served);
}

static void prepare_lists(enum version v) { prepare(v, &list_in->state); }

static void call_lists(enum version v)
{
    struct knitout_served served = lists[v](&lent[v].state, lent[v].list, list_in->count);
    lent[v].numbers = served.number;
    lent[v].served = served.length;
}

static int lists_differ(void)
{
    return answer_differs("carriers", list_in->name, list_in->number, 0, 0, list_in->served)
        || contents_differ("carriers", list_in->name);
}

const struct group carriers_group = { "carriers", list_inputs, build_lists, prepare_lists, call_lists, lists_differ,
                                      generated_lists_differ };
