/* Plays the firmware of a machine, with the calls as firmware makes them: firmware PROGRAM LOG [LIMIT [KEPT]].
   Runs the program, makes the log's swaps, says why one is refused, compares the piece with one that the mill keeps, and steps it
   on the panel. LIMIT is the loops that a hook of this machine can hold: KNITOUT_LIMIT_MOST if it is not given. On a machine that
   always has this, the calls without _at are enough. */
#include "banthewig.h"
#include "banthewig_words.h"

#include <stdbool.h>
#include <stdio.h>
#include <stdlib.h>
#include <string.h>

static uint8_t limit;
/* What comes in, with room for a byte more, by which the library sees that it is too long. */
static uint8_t program[KNITOUT_PROGRAM_MOST + 1], log_bytes[KNITOUT_LOG_MOST + 1];
/* Lent to rewriter and order: enough for every program. */
static uint8_t output[KNITOUT_PROGRAM_MOST], order[KNITOUT_PROGRAM_MOST], kept_order[KNITOUT_PROGRAM_MOST];
static uint16_t work[KNITOUT_WORK_MOST];
/* The panel's machine state and list. */
static struct knitout_state panel;
static struct knitout_carrier list[KNITOUT_CARRIERS];

/* Reads a file, the most bytes at most, and gives how many there were. */
static size_t load(const char *path, uint8_t *bytes, size_t most)
{
    FILE *file = fopen(path, "rb");
    size_t length = file ? fread(bytes, 1, most, file) : 0;

    if (!file || ferror(file)) {
        printf("%s can't be read\n", path);
        exit(EXIT_FAILURE);
    }
    fclose(file);
    return length;
}

/* Prints an answer and gives its number. */
static unsigned show(const char *call, uint64_t answer)
{
    unsigned number = KNITOUT_NUMBER(answer);

    printf("%s: %u %s, place %u\n", call, number, knitout_word(number), KNITOUT_PLACE(answer));
    return number;
}

/* Whether this machine can knit the program. */
static bool run(size_t length)
{
    unsigned number = show("run", knitout_run_at(limit, program, length));

    if (number == KNITOUT_HOOK_FULL && KNITOUT_NUMBER(knitout_run(program, length)) == KNITOUT_DONE)
        puts("a machine with larger hooks can knit it");
    return number == KNITOUT_DONE;
}

/* The racking in force at record i of the output: that of the last rack before it. */
static int8_t racking_at(size_t i)
{
    while (i > 0 && output[work[i - 1]] != KNITOUT_RACK)
        i--;
    return i > 0 ? (int8_t)output[work[i - 1] + 1] : 0; /* a racking is a byte in two's complement */
}

/* A half column is a column or a slot, a layer a bed or a carrier. */
static void show_corner(int half, unsigned layer)
{
    printf(half % 2 == 0 ? "column %d" : "slot %d", half % 2 == 0 ? half / 2 : (half + 1) / 2);
    if (layer == KNITOUT_LAYER_FRONT || layer == KNITOUT_LAYER_BACK)
        printf(" on the %s bed", layer == KNITOUT_LAYER_FRONT ? "front" : "back");
    else
        printf(" on carrier %u's layer", layer);
}

/* Why records i and i + 1 of the output were not swapped. */
static void show_tied(size_t i, size_t length)
{
    struct knitout_tied tied = knitout_tie(racking_at(i), output + work[i], length - work[i], output + work[i + 1],
                                           length - work[i + 1]);

    if (tied.by == KNITOUT_BY_RACK)
        printf("a rack stays where it is");
    else if (tied.by == KNITOUT_BY_CARRIER)
        printf("both name carrier %u", tied.carrier);
    else if (tied.by == KNITOUT_BY_EXTENTS) {
        printf("they meet from ");
        show_corner(tied.left, tied.low);
        printf(" to ");
        show_corner(tied.right, tied.high);
    } else /* not after the rewriter's KNITOUT_TIED, unless something else wrote to output or work */
        printf("%s", knitout_word(tied.number));
}

/* Makes the log's swaps up to the first that is refused. Whether there is an output to go on with. */
static bool rewrite(size_t length, size_t log_length)
{
    uint64_t answer = knitout_rewrite_at(limit, program, length, log_bytes, log_length, output, sizeof output, work,
                                         KNITOUT_WORK_MOST);
    unsigned number = show("rewrite", answer);

    if (number == KNITOUT_TORN_LOG)
        puts("no whole swap is there");
    if (number == KNITOUT_TIED || number == KNITOUT_NO_PAIR) {
        const uint8_t *swap = log_bytes + KNITOUT_PLACE(answer);
        size_t i = swap[1] * 256u + swap[2];
        printf("records %u and %u not swapped: ", (unsigned)i, (unsigned)i + 1);
        if (number == KNITOUT_TIED)
            show_tied(i, length);
        else
            printf("not both are there");
        putchar('\n');
    }
    return KNITOUT_WRITTEN(number);
}

/* Whether the output is a kept piece, with its records in some order. The kept one may be another machine's, hence the call
   without a limit. It is read over the program, and the work area is lent again: neither is needed any more. */
static void compare(size_t length, const char *path)
{
    size_t kept_length = load(path, program, sizeof program);
    uint64_t answer = knitout_order_at(limit, output, length, order, sizeof order, work, KNITOUT_WORK_MOST);
    uint64_t kept = knitout_order(program, kept_length, kept_order, sizeof kept_order, work, KNITOUT_WORK_MOST);

    if (show("order", answer) != KNITOUT_DONE || show("order of the kept", kept) != KNITOUT_DONE)
        return;
    puts(length == kept_length && memcmp(order, kept_order, length) == 0 ? "the kept piece" : "another piece");
}

/* Steps the output on the panel, from the empty state on. Whether it came to the end. */
static bool knit(size_t length)
{
    static const struct knitout_state empty = KNITOUT_EMPTY(KNITOUT_LIMIT_MOST);
    bool complete = true; /* as the empty state is */

    panel = empty;
    panel.limit = limit;
    for (size_t place = 0; place < length;) { /* at the end there is no record to step */
        struct knitout_stepped step = knitout_step(&panel, output + place, length - place);
        if (step.number != KNITOUT_DONE) { /* not after a run that is done, unless something else wrote to panel or output */
            printf("stopped at place %u: %u %s\n", (unsigned)place, step.number, knitout_word(step.number));
            return false;
        }
        /* here the carriage knits the record: step.length bytes from output + place on */
        if (step.complete && !complete)
            printf("a piece ends with the record at place %u, hooks looked at: %u\n", (unsigned)place, step.looked);
        complete = step.complete;
        place += (size_t)step.length;
    }
    return true;
}

/* The panel's line for each active carrier. */
static void show_carriers(void)
{
    struct knitout_served served = knitout_carriers(&panel, list, KNITOUT_CARRIERS);

    if (served.number != KNITOUT_DONE) /* only if something else wrote to panel */
        printf("carriers: %u %s\n", served.number, knitout_word(served.number));
    for (unsigned k = 1; k <= served.length; k++) {
        const struct knitout_carrier *carrier = &list[k - 1];
        if (!carrier->active)
            continue;
        printf("carrier %u: slot %d", k, carrier->slot);
        if (carrier->side != KNITOUT_UNATTACHED)
            printf(", %s of %c.%u, loops there: %u", carrier->side == KNITOUT_LEFT ? "left" : "right",
                   carrier->bed == KNITOUT_FRONT ? 'f' : 'b', carrier->needle,
                   panel.loops[KNITOUT_HOOK(carrier->bed, carrier->needle)]);
        putchar('\n');
    }
}

int main(int count, char **names)
{
    unsigned long given = count > 3 ? strtoul(names[3], NULL, 10) : KNITOUT_LIMIT_MOST;

    if (count < 3 || count > 5 || given > UINT8_MAX) {
        fputs("usage: firmware PROGRAM LOG [LIMIT [KEPT]]\n", stderr);
        return EXIT_FAILURE;
    }
    limit = (uint8_t)given;
    size_t length = load(names[1], program, sizeof program), log_length = load(names[2], log_bytes, sizeof log_bytes);

    if (!run(length) || !rewrite(length, log_length))
        return EXIT_FAILURE;
    if (count == 5)
        compare(length, names[4]);
    if (!knit(length))
        return EXIT_FAILURE;
    show_carriers();
    return EXIT_SUCCESS;
}
