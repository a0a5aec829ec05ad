/* The panel's services in plain C, for comparison with the library. */
#ifndef BENCH_PLAIN_PANEL_H
#define BENCH_PLAIN_PANEL_H

#include "banthewig.h"

/* Makes the step of one record on the lent state; arguments, writes and answer as knitout_step's. */
struct knitout_stepped plain_step(struct knitout_state *state, const uint8_t *bytes, size_t length);

/* Lists the carriers of a state; arguments, writes and answer as knitout_carriers'. */
struct knitout_served plain_carriers(const struct knitout_state *state, struct knitout_carrier *list, size_t count);

#endif
