/* Plays the firmware: runs a program, swaps by a log, says why a swap is refused, steps the result on a panel and lists it:
   host PROGRAM LOG [LIMIT].
   And plays the mill's library: says whether two programs are one piece: host order PROGRAM PROGRAM [LIMIT].
   LIMIT is the loops that a hook of the machine can hold, a byte; 8 if it is not given. */
#include "banthewig.h"
#include "banthewig_words.h"

#include <stdbool.h>
#include <stdio.h>
#include <stdlib.h>
#include <string.h>

/* Exit statuses. */
enum { KNITTABLE = 0, REFUSED = 1, UNREADABLE = 2, BROKEN = 3 };

/* Every byte of what is lent for writing, before a call. */
enum { PAINT = 0xA5 };

/* The most records and swaps that are looked at one by one, with a rewriter call for each. */
enum { PAIRS_MOST = 64 };

/* The hook limit of run, rewriter and panel. */
static uint8_t limit = KNITOUT_LIMIT_MOST;

/* Room for the longest file and one byte more, by which the library sees that a longer one is too long. */
static uint8_t program[KNITOUT_PROGRAM_MOST + 1], log_bytes[KNITOUT_LOG_MOST + 1];
/* Lent to rewriter and order: enough for every program. The second ones are for the call without a limit. */
static uint8_t output[KNITOUT_PROGRAM_MOST], output_again[KNITOUT_PROGRAM_MOST];
static uint16_t work[KNITOUT_WORK_MOST], work_again[KNITOUT_WORK_MOST];
enum { ENTRIES = sizeof work / sizeof *work };
/* The panel's machine state, and the same before the last step. */
static struct knitout_state panel, before;
/* Lent to the list: the ten carriers and one entry more, which no call may change; and what it held before. */
static struct knitout_carrier list[KNITOUT_CARRIERS + 1], kept[KNITOUT_CARRIERS + 1];
/* The house order of the first of two programs, kept while the second's is made. */
static uint8_t first_order[KNITOUT_PROGRAM_MOST];
/* A program and its records' starts, as the rewriter writes them. */
struct written {
    const uint8_t *bytes;
    size_t length;
    const uint16_t *starts;
};
/* Whether a promise of the library was seen not to hold. */
static bool broken;

/* Ends a line with a promise of the library, or with word that it does not hold. */
static void check(bool holds, const char *promise)
{
    printf("%s%s\n", promise, holds ? "" : ": BROKEN");
    broken = broken || !holds;
}

/* Before calls that are made only to see them refused. */
static void show_trials(void)
{
    puts("now calls that must be refused:");
}

/* Ends the line of such a call. */
static void check_refused(bool refused, const char *promise)
{
    printf("%s", promise);
    check(refused, " .. refused, as it must be");
}

/* Whether two answers have one number and one place. */
static bool is_same_answer(uint64_t a, uint64_t b)
{
    return KNITOUT_NUMBER(a) == KNITOUT_NUMBER(b) && KNITOUT_PLACE(a) == KNITOUT_PLACE(b);
}

/* Keeps a state as it is before a step, byte by byte. */
static void keep(const struct knitout_state *state)
{
    memcpy(&before, state, sizeof before);
}

/* Whether a refused step wrote nothing. */
static bool is_kept(const struct knitout_state *state)
{
    return memcmp(state, &before, sizeof before) == 0;
}

/* Empties the panel, whatever it held. One assignment leaves no value out; the limit is known only now. */
static void empty_panel(void)
{
    static const struct knitout_state empty = KNITOUT_EMPTY(KNITOUT_LIMIT_MOST);

    panel = empty;
    panel.limit = limit;
}

/* Whether a state is the empty one at its own limit, byte by byte: what a step's complete must say of the panel. */
static bool is_empty(const struct knitout_state *state)
{
    struct knitout_state empty = KNITOUT_EMPTY(state->limit);

    return memcmp(state, &empty, sizeof empty) == 0;
}

/* The hooks that tell of a state in range whether it is complete: what a step's looked must say of the panel. */
static unsigned count_looked(const struct knitout_state *state)
{
    unsigned hook = 0;

    if (state->racking != 0)
        return 0;
    while (hook < KNITOUT_HOOKS && state->loops[hook] == 0)
        hook++;
    return hook < KNITOUT_HOOKS ? hook + 1 : KNITOUT_HOOKS;
}

/* Whether the output from a byte on and the work area from an entry on are as they were painted. */
static bool is_painted(size_t byte, size_t entry)
{
    while (byte < sizeof output && output[byte] == PAINT)
        byte++;
    while (entry < ENTRIES && work[entry] == PAINT * 0x101)
        entry++;
    return byte == sizeof output && entry == ENTRIES;
}

/* Reads a file, the most bytes at most. False if it can't be opened or read. */
static bool load(const char *path, uint8_t *bytes, size_t most, size_t *length)
{
    FILE *file = fopen(path, "rb");
    bool whole = false;

    *length = 0;
    if (file) {
        *length = fread(bytes, 1, most, file);
        whole = !ferror(file);
        fclose(file);
    }
    if (!whole)
        printf("%s can't be read\n", path);
    return whole;
}

static void show_answer(const char *call, uint64_t answer)
{
    unsigned number = KNITOUT_NUMBER(answer);

    printf("%s: %u %s, place %u\n", call, number, knitout_word(number), KNITOUT_PLACE(answer));
}

/* Number and length of a step's or a list's answer. */
static void show_served(unsigned number, uint64_t length)
{
    printf("%u %s, length %u", number, knitout_word(number), (unsigned)length);
}

static void show_needle(unsigned bed, unsigned needle)
{
    printf(" %c.%u", bed == KNITOUT_FRONT ? 'f' : 'b', needle);
}

/* The needle on the other bed, which takes the loops. */
static void show_other(unsigned bed, unsigned needle)
{
    show_needle(bed == KNITOUT_FRONT ? KNITOUT_BACK : KNITOUT_FRONT, needle);
}

/* A plated stitch is written as a plain one, with two carriers. */
static const char *kind_name(unsigned kind)
{
    static const char *const names[] = {
        [KNITOUT_RACK] = "rack",
        [KNITOUT_DROP] = "drop",
        [KNITOUT_XFER] = "xfer",
        [KNITOUT_IN] = "in",
        [KNITOUT_OUT] = "out",
        [KNITOUT_MISS] = "miss",
        [KNITOUT_TUCK] = "tuck",
        [KNITOUT_KNIT] = "knit",
        [KNITOUT_SPLIT] = "split",
        [KNITOUT_PLATED_TUCK] = "tuck",
        [KNITOUT_PLATED_KNIT] = "knit",
    };
    return names[kind];
}

static bool is_plated(const uint8_t *record)
{
    return record[0] == KNITOUT_PLATED_TUCK || record[0] == KNITOUT_PLATED_KNIT;
}

/* A record with a carrier, from its direction on. */
static void show_stitch(const uint8_t *bytes)
{
    printf(" %c", bytes[1] == KNITOUT_TO_RIGHT ? '+' : '-');
    show_needle(bytes[2], bytes[3]);
    if (bytes[0] == KNITOUT_SPLIT)
        show_other(bytes[2], bytes[5]);
    printf(" %u", bytes[4]);
    if (is_plated(bytes))
        printf(" %u", bytes[5]);
}

/* A rack's racking. */
static int racking_of(const uint8_t *rack)
{
    return rack[1] < 128 ? rack[1] : rack[1] - 256;
}

/* A record whose bytes are all there and in range, as document 02 writes it in a line. */
static void show_record(const uint8_t *bytes)
{
    printf("%s", kind_name(bytes[0]));
    switch (bytes[0]) {
    case KNITOUT_RACK:
        printf(" %d", racking_of(bytes));
        break;
    case KNITOUT_DROP:
        show_needle(bytes[1], bytes[2]);
        break;
    case KNITOUT_XFER:
        show_needle(bytes[1], bytes[2]);
        show_other(bytes[1], bytes[3]);
        break;
    default:
        show_stitch(bytes);
    }
}

/* Whether a step with this number came to a record, whole and with its fields in range. */
static bool is_of_record(unsigned number)
{
    switch (number) {
    case KNITOUT_DONE:
    case KNITOUT_ALREADY_IN:
    case KNITOUT_NOT_IN:
    case KNITOUT_WRONG_SLOT:
    case KNITOUT_FLOAT_TOO_LONG:
    case KNITOUT_NOT_OPPOSITE:
    case KNITOUT_HOOK_FULL:
    case KNITOUT_YARN_TWICE:
    case KNITOUT_STRETCHED:
        return true;
    default:
        return false;
    }
}

/* One line a step. */
static void show_step(size_t place, struct knitout_stepped stepped, const uint8_t *bytes)
{
    printf("place %u: ", (unsigned)place);
    show_served(stepped.number, stepped.length);
    if (is_of_record(stepped.number)) {
        printf(", ");
        show_record(bytes);
    }
    putchar('\n');
}

/* The slots from an attached carrier's attachment to where it is parked, at a racking. */
static int distance(const struct knitout_carrier *carrier, int racking)
{
    int column = carrier->needle + (carrier->bed == KNITOUT_BACK ? racking : 0);

    return abs(column + (carrier->side == KNITOUT_RIGHT) - carrier->slot);
}

/* Says of each carrier whose yarn a rack would stretch how far its attachment is and would be; gives how many there are. */
static unsigned show_stretched(const struct knitout_state *state, int racking)
{
    unsigned stretched = 0;

    for (unsigned k = 1; k <= KNITOUT_CARRIERS; k++) {
        const struct knitout_carrier *carrier = &state->carriers[k - 1];
        if (carrier->side == KNITOUT_UNATTACHED) /* or not parked */
            continue;
        int now = distance(carrier, state->racking), then = distance(carrier, racking);
        if (then <= KNITOUT_STRETCH_MOST || then <= now)
            continue;
        printf("carrier %u would be stretched: its attachment is %d slots away, after the rack %d\n", k, now, then);
        stretched++;
    }
    return stretched;
}

/* A rack is refused with 17 exactly if it stretches a yarn on the panel as it was before. */
static void check_rack(unsigned number, const uint8_t *rack)
{
    unsigned stretched = show_stretched(&before, racking_of(rack));

    if ((stretched > 0) != (number == KNITOUT_STRETCHED))
        check(false, "a rack is refused exactly if it stretches a yarn");
}

/* One record's step on the panel, at a place of a program. */
static struct knitout_stepped step(const uint8_t *bytes, size_t length, size_t place)
{
    keep(&panel);
    struct knitout_stepped stepped = knitout_step(&panel, bytes + place, length - place);

    show_step(place, stepped, bytes + place);
    if (bytes[place] == KNITOUT_RACK && is_of_record(stepped.number))
        check_rack(stepped.number, bytes + place);
    if (stepped.complete != is_empty(&panel) || stepped.looked != count_looked(&panel))
        check(false, "complete and the hooks looked at are said of the state that the step leaves");
    if (panel.limit != limit)
        check(false, "a step keeps the limit");
    if (stepped.number != KNITOUT_DONE) {
        printf("%s, hooks looked at: %u; ", stepped.complete ? "complete" : "not complete", stepped.looked);
        check(stepped.length == 0 && is_kept(&panel), "the refused step left the panel as it was");
    }
    return stepped;
}

/* Steps a program's records on the panel from the empty state, with a line more where a piece ends: the machine is complete
   again. Gives number and place as knitout_run_at does. */
static uint64_t walk(const uint8_t *bytes, size_t length)
{
    size_t place = 0, record = 0;
    bool complete = true; /* the empty state is */

    empty_panel();
    while (place < length) { /* at the end there is no record: a step of no bytes would get 4 */
        if (bytes == output && work[record++] != place)
            check(false, "the work area has each record's start");
        struct knitout_stepped stepped = step(bytes, length, place);
        if (stepped.number != KNITOUT_DONE)
            return ((uint64_t)stepped.number << 16) + place;
        if (stepped.complete && !complete)
            printf("complete again, after the record at place %u; hooks looked at: %u\n", (unsigned)place, stepped.looked);
        complete = stepped.complete;
        place += (size_t)stepped.length;
    }
    if (bytes == output)
        check(is_painted(length, record), "past the program, output and work are as they were");
    return KNITOUT_DONE;
}

static void show_carrier(unsigned k, const struct knitout_carrier *carrier)
{
    printf("carrier %u: ", k);
    if (!carrier->active) {
        puts("inactive");
        return;
    }
    printf("slot %d,", carrier->slot);
    if (carrier->side == KNITOUT_UNATTACHED) {
        puts(" unattached");
        return;
    }
    show_needle(carrier->bed, carrier->needle);
    puts(carrier->side == KNITOUT_LEFT ? " left" : " right");
}

static void show_hooks(void)
{
    for (unsigned bed = KNITOUT_FRONT; bed <= KNITOUT_BACK; bed++)
        for (unsigned needle = 0; needle < KNITOUT_NEEDLES; needle++)
            if (panel.loops[KNITOUT_HOOK(bed, needle)] > 0) {
                printf("hook");
                show_needle(bed, needle);
                printf(": %u\n", panel.loops[KNITOUT_HOOK(bed, needle)]);
            }
}

/* Lends a list of so many entries, marked beforehand to see which are written. */
static struct knitout_served list_carriers(const struct knitout_state *state, size_t count)
{
    memset(list, PAINT, sizeof list);
    memcpy(kept, list, sizeof list);
    return knitout_carriers(state, list, count);
}

static void show_panel(const char *when)
{
    struct knitout_served served = list_carriers(&panel, KNITOUT_CARRIERS + 1);

    printf("panel %s: racking %d, limit %u\n", when, panel.racking, panel.limit);
    printf("list of eleven: ");
    show_served(served.number, served.length);
    check(served.number == KNITOUT_DONE && served.length == KNITOUT_CARRIERS &&
              memcmp(list, panel.carriers, sizeof panel.carriers) == 0 &&
              memcmp(&list[KNITOUT_CARRIERS], &kept[KNITOUT_CARRIERS], sizeof *list) == 0,
          ", ten written, the eleventh left as it was");
    for (unsigned k = 1; k <= KNITOUT_CARRIERS; k++)
        show_carrier(k, &list[k - 1]);
    show_hooks();
}

/* Whether a list is refused with this number and stays as it was. */
static bool is_refused_list(const struct knitout_state *state, size_t count, unsigned number)
{
    struct knitout_served served = list_carriers(state, count);

    return served.number == number && served.length == 0 && memcmp(list, kept, sizeof list) == 0;
}

/* A foul state is refused first, even by the drop that would empty a bad hook and for a list too short. It is never
   complete, empty or not, and no hook is looked at for that. */
static void try_foul(const char *what, struct knitout_state *foul)
{
    static const uint8_t drop[] = {KNITOUT_DROP, KNITOUT_FRONT, 3};

    keep(foul);
    struct knitout_stepped stepped = knitout_step(foul, drop, sizeof drop);
    printf("%s: step ", what);
    show_served(stepped.number, stepped.length);
    check_refused(stepped.number == KNITOUT_BAD_STATE && stepped.complete == 0 && stepped.looked == 0 && stepped.length == 0 &&
                      is_refused_list(foul, KNITOUT_CARRIERS - 1, KNITOUT_BAD_STATE) &&
                      is_refused_list(foul, KNITOUT_CARRIERS + 1, KNITOUT_BAD_STATE) && is_kept(foul),
                  ", not complete, no hook looked at, lists of nine and eleven too, nothing written");
}

/* A pair that is refused with this number has no reason. */
static void try_tie(const char *what, struct knitout_tied tied, unsigned number)
{
    printf("%s: tie %u %s", what, tied.number, knitout_word(tied.number));
    check_refused(tied.number == number && tied.by == KNITOUT_UNTIED && tied.carrier == 0 && tied.left == 0 &&
                      tied.right == 0 && tied.low == 0 && tied.high == 0,
                  ", all else 0");
}

/* The racking is looked at first, then the first record, then the second. */
static void try_ties(void)
{
    static const uint8_t drop[] = {KNITOUT_DROP, KNITOUT_FRONT, 3}, strange[] = {0},
                         field[] = {KNITOUT_DROP, KNITOUT_BACK + 1, 3};

    try_tie("racking 9", knitout_tie(KNITOUT_RACKING_MOST + 1, strange, sizeof strange, drop, sizeof drop),
            KNITOUT_BAD_STATE);
    try_tie("racking -9", knitout_tie(KNITOUT_RACKING_LEAST - 1, drop, sizeof drop, drop, sizeof drop), KNITOUT_BAD_STATE);
    try_tie("an unknown kind first", knitout_tie(0, strange, sizeof strange, drop, sizeof drop - 1), KNITOUT_UNKNOWN_KIND);
    try_tie("a bed out of range first", knitout_tie(0, field, sizeof field, strange, sizeof strange), KNITOUT_FIELD_RANGE);
    try_tie("a cut drop second", knitout_tie(0, drop, sizeof drop, drop, sizeof drop - 1), KNITOUT_CUT_SHORT);
    try_tie("no byte second", knitout_tie(0, drop, sizeof drop, NULL, 0), KNITOUT_CUT_SHORT);
}

/* The panel with a value damaged, a list too short, and pairs that are none. */
static void try_refusals(void)
{
    static struct knitout_state foul;

    show_trials();
    foul = panel;
    foul.loops[KNITOUT_HOOK(KNITOUT_FRONT, 3)] = limit + 1;
    try_foul("a loop over the limit", &foul);
    foul = panel;
    foul.limit = KNITOUT_LIMIT_LEAST - 1;
    try_foul("limit 0", &foul);
    foul.limit = KNITOUT_LIMIT_MOST + 1;
    try_foul("limit 9", &foul);
    check_refused(is_refused_list(&panel, KNITOUT_CARRIERS - 1, KNITOUT_NO_ROOM), "list of nine: 2, nothing written");
    try_ties();
}

/* Paints what is lent to rewriter and order. */
static void paint(void)
{
    memset(output, PAINT, sizeof output);
    memset(work, PAINT, sizeof work);
    memset(output_again, PAINT, sizeof output_again);
    memset(work_again, PAINT, sizeof work_again);
}

/* Whether a second call did the same as the first. */
static bool is_again(uint64_t answer, uint64_t answer_again)
{
    return is_same_answer(answer_again, answer) && memcmp(output_again, output, sizeof output) == 0 &&
           memcmp(work_again, work, sizeof work) == 0;
}

/* Limit 8 is that of the calls without one. */
static void try_without_limit(size_t length, size_t log_length, uint64_t run, uint64_t rewrite)
{
    uint64_t run_again = knitout_run(program, length);
    uint64_t rewrite_again = knitout_rewrite(program, length, log_bytes, log_length, output_again, sizeof output_again,
                                             work_again, ENTRIES);
    check(is_same_answer(run_again, run) && is_again(rewrite, rewrite_again), "the calls without a limit do the same");
}

static const uint8_t *record_at(const struct written *made, size_t i)
{
    return made->bytes + made->starts[i];
}

/* The records of the output: past their starts the work area is painted, with what is no start. */
static size_t count_records(void)
{
    size_t count = 0;

    while (count < ENTRIES && work[count] != PAINT * 0x101)
        count++;
    return count;
}

/* The position that a log's record asks for. */
static size_t position_of(const uint8_t *swap)
{
    return swap[1] * 256u + swap[2];
}

/* The racking in force at a record: that of the last rack before it. */
static int8_t racking_at(const struct written *made, size_t i)
{
    while (i > 0 && *record_at(made, i - 1) != KNITOUT_RACK)
        i--;
    return i > 0 ? (int8_t)racking_of(record_at(made, i - 1)) : 0;
}

/* Whether records i and i + 1 are tied, and why. */
static struct knitout_tied tie_at(const struct written *made, size_t i)
{
    return knitout_tie(racking_at(made, i), record_at(made, i), made->length - made->starts[i], record_at(made, i + 1),
                       made->length - made->starts[i + 1]);
}

static bool is_same_tie(struct knitout_tied a, struct knitout_tied b)
{
    return a.number == b.number && a.by == b.by && a.carrier == b.carrier && a.left == b.left && a.right == b.right &&
           a.low == b.low && a.high == b.high;
}

/* Whether a pair gets the same answer the other way round, with no byte behind its first record. */
static bool is_either_way(struct knitout_tied tied, const struct written *made, size_t i)
{
    const uint8_t *first = record_at(made, i), *second = record_at(made, i + 1);

    return is_same_tie(tied, knitout_tie(racking_at(made, i), second, made->length - made->starts[i + 1], first,
                                         (size_t)(second - first)));
}

/* The column at or left of a half column. */
static int column_of(int half)
{
    return (half - (half & 1)) / 2;
}

/* Half columns as a knitter says them: by the columns among them, and half a column more at an end between two. */
static void show_columns(int left, int right)
{
    static const char *const sides[2][2] = {{"", " and half a column to the right"},
                                            {" and half a column to the left", " and half a column to both sides"}};
    int first = column_of(left + 1), last = column_of(right);

    if (first > last)
        printf("between columns %d and %d", last, first);
    else if (first == last)
        printf("at column %d%s", first, sides[left & 1][right & 1]);
    else
        printf("at columns %d to %d%s", first, last, sides[left & 1][right & 1]);
}

static void show_layer(unsigned layer)
{
    if (layer == KNITOUT_LAYER_FRONT)
        printf("the front bed");
    else if (layer == KNITOUT_LAYER_BACK)
        printf("the back bed");
    else
        printf("carrier %u", layer);
}

static void show_layers(unsigned low, unsigned high)
{
    printf(low == high ? "on the layer of " : "on the layers from ");
    show_layer(low);
    if (low < high) {
        printf(" to ");
        show_layer(high);
    }
}

static void show_reason(struct knitout_tied tied)
{
    switch (tied.by) {
    case KNITOUT_BY_RACK:
        printf("a rack stays where it is");
        break;
    case KNITOUT_BY_CARRIER:
        printf("both name carrier %u", tied.carrier);
        break;
    case KNITOUT_BY_EXTENTS:
        printf("they meet ");
        show_columns(tied.left, tied.right);
        printf(", ");
        show_layers(tied.low, tied.high);
        break;
    default:
        printf("no reason");
    }
}

/* The two records that a swap was refused for, and why. */
static void show_tied(const struct written *made, size_t i)
{
    struct knitout_tied tied = tie_at(made, i);

    printf("the log asks to swap these, at racking %d:\n", racking_at(made, i));
    for (size_t k = i; k <= i + 1; k++) {
        printf("record %u: ", (unsigned)k);
        show_record(record_at(made, k));
        putchar('\n');
    }
    printf("not swapped: ");
    show_reason(tied);
    putchar('\n');
    check(tied.number == KNITOUT_TIED && is_either_way(tied, made, i), "the pair's own call says so too, either way round");
}

/* The bytes of a log's record that is not a whole swap. */
static void show_torn(const uint8_t *swap, size_t length)
{
    size_t there = length < KNITOUT_LOG_RECORD ? length : KNITOUT_LOG_RECORD;

    printf("the log has");
    for (size_t k = 0; k < there; k++)
        printf(" %02x", swap[k]);
    check(there < KNITOUT_LOG_RECORD || swap[0] != KNITOUT_SWAP, " there; a swap is 40 and two bytes of position");
}

/* Why the log was left at a place, if it was. */
static void explain(uint64_t answer, size_t log_length, const struct written *made, size_t count)
{
    const uint8_t *swap = log_bytes + KNITOUT_PLACE(answer);

    if (KNITOUT_NUMBER(answer) == KNITOUT_TORN_LOG)
        show_torn(swap, log_length - KNITOUT_PLACE(answer));
    if (KNITOUT_NUMBER(answer) != KNITOUT_TIED && KNITOUT_NUMBER(answer) != KNITOUT_NO_PAIR)
        return;
    size_t i = position_of(swap);
    bool pair = i + 1 < count;
    if (pair)
        show_tied(made, i);
    else
        printf("the program has %u records, counted from 0; the log asks for records %u and %u\n", (unsigned)count,
               (unsigned)i, (unsigned)i + 1);
    if (pair != (KNITOUT_NUMBER(answer) == KNITOUT_TIED))
        check(false, "no pair is said exactly if one of the two is missing");
}

/* Makes a log's swaps in the second output. */
static uint64_t swap_again(const struct written *made, const uint8_t *swaps, size_t length)
{
    return knitout_rewrite_at(limit, made->bytes, made->length, swaps, length, output_again, sizeof output_again,
                              work_again, ENTRIES);
}

/* Each accepted swap, made again after those before it, is of a pair that is not tied. */
static void check_swaps(size_t length, size_t swaps)
{
    const struct written loaded = {program, length, NULL}, made = {output_again, length, work_again};
    bool untied = true;

    for (size_t k = 0; k < swaps; k++) {
        size_t i = position_of(log_bytes + k * KNITOUT_LOG_RECORD);
        uint64_t answer = swap_again(&loaded, log_bytes, k * KNITOUT_LOG_RECORD);

        untied = untied && KNITOUT_NUMBER(answer) == KNITOUT_DONE && tie_at(&made, i).number == KNITOUT_DONE;
    }
    if (swaps == 0)
        return;
    printf("swaps made: %u", (unsigned)swaps);
    check(untied, ", each of a pair that was not tied");
}

/* The rewriter swaps exactly those neighbours that are not tied. */
static void check_neighbours(const struct written *made, size_t count)
{
    unsigned pairs[2] = {0, 0};
    bool same = true;

    for (size_t i = 0; i + 1 < count; i++) {
        const uint8_t swap[KNITOUT_LOG_RECORD] = {KNITOUT_SWAP, (uint8_t)(i / 256), (uint8_t)(i % 256)};
        struct knitout_tied tied = tie_at(made, i);

        same = same && KNITOUT_NUMBER(swap_again(made, swap, sizeof swap)) == tied.number && is_either_way(tied, made, i);
        pairs[tied.number == KNITOUT_TIED]++;
    }
    printf("pairs of neighbours in the output: %u tied, %u not", pairs[1], pairs[0]);
    check(same, "; the rewriter refuses to swap exactly the tied ones");
}

/* What the rewriter did with the log, seen with the pairs' own call. */
static void look_at_swaps(uint64_t answer, size_t length, size_t log_length)
{
    const struct written made = {output, length, work};
    size_t count = count_records(),
           swaps = (KNITOUT_NUMBER(answer) == KNITOUT_DONE ? log_length : KNITOUT_PLACE(answer)) / KNITOUT_LOG_RECORD;

    explain(answer, log_length, &made, count);
    if (count > PAIRS_MOST || swaps > PAIRS_MOST)
        return;
    check_swaps(length, swaps);
    check_neighbours(&made, count);
}

/* Runs, rewrites and walks the loaded program; gives the exit status. */
static int serve(size_t length, size_t log_length)
{
    paint();
    uint64_t run = knitout_run_at(limit, program, length);
    uint64_t rewrite = knitout_rewrite_at(limit, program, length, log_bytes, log_length, output, sizeof output,
                                          work, ENTRIES);
    /* if the output was not written, the program stays the one to go by */
    const uint8_t *bytes = KNITOUT_WRITTEN(KNITOUT_NUMBER(rewrite)) ? output : program;

    show_answer("run", run);
    show_answer("rewrite", rewrite);
    if (bytes == program)
        check(is_painted(0, 0), "the refused rewriter wrote nothing");
    if (limit == KNITOUT_LIMIT_MOST)
        try_without_limit(length, log_length, run, rewrite);
    if (bytes == output)
        look_at_swaps(rewrite, length, log_length);
    if (KNITOUT_NUMBER(run) == KNITOUT_BAD_STATE) { /* no machine has this limit */
        empty_panel();
        show_trials();
        try_foul("empty panel at this limit", &panel);
        return REFUSED;
    }
    if (KNITOUT_NUMBER(run) == KNITOUT_TOO_LONG)
        return REFUSED; /* the step looks at one record only, so it has no number for this */
    printf("walk of the %s:\n", bytes == output ? "output" : "program");
    uint64_t end = walk(bytes, length);
    check(is_same_answer(end, knitout_run_at(limit, bytes, length)), "the walk ended as the run of the same bytes");
    show_panel(KNITOUT_NUMBER(end) == KNITOUT_DONE ? "after the last record" : "before the refused record");
    try_refusals();
    return KNITOUT_NUMBER(run) == KNITOUT_DONE && KNITOUT_NUMBER(rewrite) == KNITOUT_DONE ? KNITTABLE : REFUSED;
}

/* Orders the loaded program, and looks whether the call kept its promises. Whether it is done. */
static bool order(const char *name, size_t length)
{
    paint();
    uint64_t answer = knitout_order_at(limit, program, length, output, sizeof output, work, ENTRIES);

    printf("%s, ", name);
    show_answer("order", answer);
    check(is_same_answer(answer, knitout_run_at(limit, program, length)), "it answers as the run does");
    if (limit == KNITOUT_LIMIT_MOST)
        check(is_again(answer, knitout_order(program, length, output_again, sizeof output_again, work_again, ENTRIES)),
              "the call without a limit does the same");
    if (KNITOUT_NUMBER(answer) != KNITOUT_DONE) {
        check(is_painted(0, 0), "the refused order wrote nothing");
        return false;
    }
    memset(output_again, PAINT, sizeof output_again);
    memset(work_again, PAINT, sizeof work_again);
    check(is_again(KNITOUT_DONE, knitout_order_at(limit, output, length, output_again, sizeof output_again, work_again,
                                                  ENTRIES)),
          "ordered twice it is the same");
    return true;
}

/* Orders two programs and compares; if the orders are equal, shows it by its steps. Gives the exit status. */
static int compare(char **names)
{
    size_t first_length, length;

    if (!load(names[0], program, sizeof program, &first_length))
        return UNREADABLE;
    bool first_done = order(names[0], first_length);

    memcpy(first_order, output, sizeof first_order);
    if (!load(names[1], program, sizeof program, &length))
        return UNREADABLE;
    if (!order(names[1], length) || !first_done) {
        puts("not compared");
        return REFUSED;
    }
    if (first_length != length || memcmp(first_order, output, length) != 0) {
        puts("other bytes: no accepted swaps lead from one to the other");
        return REFUSED;
    }
    puts("equal bytes: accepted swaps lead from one to the other, and one is enough to keep");
    check(walk(output, length) == KNITOUT_DONE, "the order runs to its end");
    return KNITTABLE;
}

/* Takes the limit from a text; false if that is not a byte's value. */
static bool take_limit(const char *text)
{
    char *end;
    unsigned long value = strtoul(text, &end, 10);

    limit = (uint8_t)value;
    return '0' <= text[0] && text[0] <= '9' && *end == '\0' && value <= UINT8_MAX;
}

int main(int count, char **names)
{
    size_t length, log_length;
    bool ordering = count > 1 && strcmp(names[1], "order") == 0;

    count -= ordering;
    names += ordering;
    if (count < 3 || count > 4 || (count == 4 && !take_limit(names[3]))) {
        fputs("usage: host PROGRAM LOG [LIMIT]\n       host order PROGRAM PROGRAM [LIMIT]\n", stderr);
        return UNREADABLE;
    }
    printf("%s %s %s at limit %u\n", names[1], ordering ? "and" : "by", names[2], limit);
    if (ordering) {
        int status = compare(names + 1);

        return broken ? BROKEN : status;
    }
    if (!load(names[1], program, sizeof program, &length) ||
        !load(names[2], log_bytes, sizeof log_bytes, &log_length))
        return UNREADABLE;
    int status = serve(length, log_length);
    return broken ? BROKEN : status;
}
