/* The states, records and lists on which the panel's services are measured. */
#ifndef BENCH_PANEL_H
#define BENCH_PANEL_H

#include "programs.h"

enum { STEP_INPUTS = 32, LIST_INPUTS = 4 };

/* A program of 32,768 bytes has no more records. */
enum { PLACES_LIMIT = KNITOUT_PROGRAM_MOST / 2 };

/* Steps of a mixed program or of one record from a state. */
struct step_input {
    const char *name;
    struct knitout_state state;
    const uint8_t *bytes;
    size_t length;
    unsigned steps;
    uint16_t places[PLACES_LIMIT]; /* of each step's record */
    unsigned number;
    unsigned complete;             /* how many answers say it */
    unsigned looked;               /* the hooks looked at for that, of all answers together */
    size_t served;                 /* the lengths of all answers together */
};

struct list_input {
    const char *name;
    struct knitout_state state;
    size_t count;
    unsigned number;
    size_t served;
};

/* An input by its place, the same one on every call. */
const struct step_input *build_step(int i);
const struct list_input *build_list(int i);

/* Are all bytes the same? Each is a value: a state has no padding. */
int states_agree(const struct knitout_state *a, const struct knitout_state *b);

/* Are a state's bytes those of the empty one at its limit? */
int is_empty(const struct knitout_state *state);

/* The hooks that complete is decided by, counted one by one: none at a racking, else up to the first that holds a loop. */
unsigned count_looked(const struct knitout_state *state);

/* Both versions on generated inputs (bench/panel_checks.c): 1 if they differ, with a message. */
int generated_steps_differ(void);
int generated_lists_differ(void);

#endif
