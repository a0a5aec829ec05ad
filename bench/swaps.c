/* Builds the programs and logs on which the rewriter is measured. */
#include "swaps.h"

#include "plain_rewrite.h"
#include "programs.h"

#include <stdlib.h>
#include <string.h>

enum { WIDTH = 25, CASES_LIMIT = 256 };

/* The racking of every 64th record is kept, so that a swap's walk is (position modulo 64) records long. */
enum { STRIDE = 64 };

/* Swaps of a log at one position, of one all over the program, of a full log. MANY is even, so that each is undone;
   one is enough where it is refused. */
enum { MANY = 1000, FEW = 200, FULL = KNITOUT_LOG_MOST / SWAP_SIZE };

/* The dearest program: its records, and where its two stand that swap. */
enum { DEAREST = 16350, DEAREST_AT = 255 * STRIDE - 1 };

static struct swap_case cases[CASES_LIMIT];
static int case_count;
static struct swap_input input;

static void add(struct swap_case c)
{
    if (case_count == CASES_LIMIT) abort();
    cases[case_count++] = c;
}

/* The same program with an empty log. */
static void add_empty(struct swap_case c)
{
    c.table = "empty";
    c.swaps = c.number = 0;
    add(c);
}

/* Near the front (in the first stride given), in the middle and near the end, with one position modulo 64; short programs
   have fewer of them. */
static void add_positions(struct swap_case c, unsigned first, unsigned modulo)
{
    unsigned last = (c.records - 2 - modulo) / STRIDE, before = c.records;
    for (unsigned half = 0; half <= 2; half++) {
        c.position = (first + (last - first) * half / 2) * STRIDE + modulo;
        if (c.position == before) continue;
        before = c.position;
        add_empty(c);
        add(c);
    }
}

static void add_swaps_from(unsigned first, const char *program, unsigned records, unsigned swaps, unsigned number)
{
    static const unsigned modulos[] = { 0, 32, 63 };
    struct swap_case c = { "swap", program, records, AT, 0, swaps, number, 0 };
    for (int i = 0; i < 3; i++) add_positions(c, first, modulos[i]);
}

static void add_swaps(const char *program, unsigned records, unsigned swaps, unsigned number)
{
    add_swaps_from(0, program, records, swaps, number);
}

static void add_one_place(void)
{
    add_swaps("knit", 100, MANY, KNITOUT_DONE);
    add_swaps("knit", 1000, MANY, KNITOUT_DONE);
    add_swaps("knit", 6500, MANY, KNITOUT_DONE);
    add_swaps_from(1, "plated-knit", 200, MANY, KNITOUT_DONE);
    add_swaps_from(1, "plated-knit", 1000, MANY, KNITOUT_DONE);
    add_swaps_from(1, "plated-knit", 5400, MANY, KNITOUT_DONE);
    add_swaps("two-drops", 100, MANY, KNITOUT_DONE);
    add_swaps("two-drops", 1000, MANY, KNITOUT_DONE);
    add_swaps("two-drops", 16383, MANY, KNITOUT_DONE);
    add_swaps("rack", 16384, 1, KNITOUT_TIED);
}

static void add_with_empty(const char *table, const char *program, unsigned records, enum log_kind log, unsigned swaps)
{
    struct swap_case c = { table, program, records, log, 0, swaps, KNITOUT_DONE, 0 };
    add_empty(c);
    add(c);
}

static void add_full_logs(void)
{
    unsigned mixed = find_program("mixed")->records;
    add_with_empty("swap", "mixed", mixed, FOUND, FEW);
    add_with_empty("swap", "plated-mix", find_program("plated-mix")->records, FOUND, FEW);
    add_with_empty("full", "knit", 6500, SPREAD, FULL);
    add_with_empty("full", "mixed", mixed, FORTH_AND_BACK, FULL);
    add_with_empty("full", "knit", 6500, ENDS, FULL);
    struct swap_case dearest = { "full", "dearest", DEAREST, AGAIN, DEAREST_AT, FULL, KNITOUT_DONE, 0 };
    add_empty(dearest);
    add(dearest);
}

/* The longest program of knits once more, at limit 1. */
static void add_at_limit(void)
{
    struct swap_case c = { "empty", "knit-at-1", 6500, AT, 0, 0, KNITOUT_DONE, 1 };
    add(c);
}

/* Doubling: mixed programs with an empty log, knit programs with one log's swaps, logs on one program, both. */
static void add_growth(void)
{
    static const char *const mixed[] = { "mixed-2048", "mixed-4096", "mixed-8192", "mixed-16384", "mixed" };
    for (int i = 0; i < 5; i++) {
        add_empty((struct swap_case){ "", mixed[i], find_program(mixed[i])->records, AT, 0, 0, 0, 0 });
        add_with_empty("program-growth", "knit", 400u << i, SPREAD, FEW);
        add_with_empty("log-growth", "knit", 6500, SPREAD, FULL >> (4 - i));
        add_with_empty("both-growth", "knit", 400u << i, SPREAD, FULL >> (4 - i));
    }
}

const struct swap_case *list_swaps(int *count)
{
    if (case_count == 0) {
        add_one_place();
        add_full_logs();
        add_at_limit();
        add_growth();
    }
    *count = case_count;
    return cases;
}

static void append(const uint8_t *record)
{
    size_t size = record_size[record[0]];
    if (size > KNITOUT_PROGRAM_MOST - input.length) abort();
    memcpy(input.program + input.length, record, size);
    input.length += size;
    input.records++;
}

/* Five-byte records: ten in, then a knit with each carrier in turn, right and left over its own 25 columns. Odd
   carriers work the back bed, even ones the front; neighbours are 24 columns apart or more. */
static void build_knit(unsigned records)
{
    for (unsigned i = 0; i < records; i++) {
        unsigned k = i % KNITOUT_CARRIERS, round = i / KNITOUT_CARRIERS, kind = KNIT, left = 0, step = 0;
        if (round == 0) {
            kind = IN;
        } else {
            left = (round - 1) / WIDTH % 2;
            step = (round - 1) % WIDTH;
        }
        unsigned needle = WIDTH * k + (left ? WIDTH - 1 - step : step);
        append((uint8_t[]){ (uint8_t)kind, !left, k % 2 == 0, (uint8_t)needle, (uint8_t)(k + 1) });
    }
}

/* Six-byte records but for ten in: five pairs of carriers in turn, right and left over their own 50 columns, on the front
   and the back bed by turns. Neighbours are 49 columns apart or more. */
static void build_plated_knit(unsigned records)
{
    enum { PAIRS = KNITOUT_CARRIERS / 2 };
    for (unsigned k = 0; k < KNITOUT_CARRIERS; k++)
        append((uint8_t[]){ IN, RIGHT, KNITOUT_FRONT, (uint8_t)(2 * WIDTH * (k % PAIRS)), (uint8_t)(k + 1) });
    for (unsigned i = 0; i < records - KNITOUT_CARRIERS; i++) {
        unsigned pair = i % PAIRS, round = i / PAIRS, left = round / (2 * WIDTH) % 2, step = round % (2 * WIDTH);
        unsigned needle = 2 * WIDTH * pair + (left ? 2 * WIDTH - 1 - step : step);
        append((uint8_t[]){ PLATED_KNIT, !left, pair % 2 == 0, (uint8_t)needle, (uint8_t)(pair + 1),
                            (uint8_t)(pair + 1 + PAIRS) });
    }
}

/* Two-byte records but for a drop on each bed at the position, if that is in the program. */
static void build_racks(unsigned records, unsigned position)
{
    for (unsigned i = 0; i < records; i++) {
        if (i == position) append((uint8_t[]){ DROP, KNITOUT_FRONT, 10 });
        else if (i == position + 1) append((uint8_t[]){ DROP, KNITOUT_BACK, 100 });
        else append((uint8_t[]){ RACK, (uint8_t)(i * 5 % 17 - 8) });
    }
}

/* Two-byte records as far as can be, each a rack that looks at ten attachments on the back bed: ten in and ten tucks before,
   three of them at one needle; near the end, where no mark is near, a tuck on the front and a plated tuck on the back at one
   column, whose layers do not meet. */
static void build_dearest(unsigned records)
{
    for (unsigned i = 0; i < 2 * KNITOUT_CARRIERS; i++) {
        unsigned k = i / 2 + 1, needle = k <= 3 ? 0 : WIDTH * (k - 1);
        append((uint8_t[]){ i % 2 ? TUCK : IN, RIGHT, KNITOUT_BACK, (uint8_t)needle, (uint8_t)k });
    }
    for (unsigned i = input.records; i < records; i++) {
        if (i == DEAREST_AT) append((uint8_t[]){ TUCK, RIGHT, KNITOUT_FRONT, 1, 1 });
        else if (i == DEAREST_AT + 1) append((uint8_t[]){ PLATED_TUCK, RIGHT, KNITOUT_BACK, 1, 2, 3 });
        else append((uint8_t[]){ RACK, i + 1 == DEAREST_AT ? 0 : (uint8_t)(i * 5 % 17 - 8) });
    }
}

static void build_listed(const struct program *p)
{
    memcpy(input.program, p->bytes, p->length);
    input.length = p->length;
    input.records = p->records;
}

static void log_swap(unsigned position)
{
    uint8_t *at = input.log + input.log_length;
    at[0] = SWAP;
    at[1] = (uint8_t)(position >> 8);
    at[2] = (uint8_t)position;
    input.log_length += SWAP_SIZE;
}

/* Makes the log's swaps: number and the refused one's place. */
static uint64_t try_log(void)
{
    static uint8_t output[KNITOUT_PROGRAM_MOST];
    static uint16_t work[KNITOUT_PROGRAM_MOST / 2];
    return plain_rewrite(input.program, input.length, input.log, input.log_length, output, KNITOUT_PROGRAM_MOST,
                         work, KNITOUT_PROGRAM_MOST / 2);
}

static void leave_out(size_t place)
{
    input.log_length -= SWAP_SIZE;
    memmove(input.log + place, input.log + place + SWAP_SIZE, input.log_length - place);
}

/* The positions go all over the program, and those are left out at which a swap is refused. */
static void build_found(unsigned swaps)
{
    size_t length = swaps * (size_t)SWAP_SIZE;
    uint64_t answer = 0;
    for (unsigned i = 0; input.log_length < length || answer; i++) {
        if (answer) leave_out(KNITOUT_PLACE(answer));
        log_swap(i * 2741 % (input.records - 1));
        if (input.log_length == length) answer = try_log();
    }
}

/* The log of FEW swaps found, then the same backwards, which undoes it, in turn. */
static void build_forth_and_back(unsigned swaps)
{
    build_found(FEW);
    for (unsigned i = FEW; i < swaps; i++) {
        unsigned from = i / FEW % 2 ? FEW - 1 - i % FEW : i % FEW;
        memcpy(input.log + input.log_length, input.log + from * SWAP_SIZE, SWAP_SIZE);
        input.log_length += SWAP_SIZE;
    }
}

/* The i-th position: AT one place, or AGAIN and again in a full log; SPREAD over all records but the last few, with one
   sequence modulo 64 in all programs; or at both ENDS in turn. Of the last two, each swap is undone two swaps later, so that
   none is refused. */
static unsigned position_of(const struct swap_case *c, unsigned i)
{
    unsigned strides = (c->records - 1) / STRIDE, pair = i / 4, second = i % 2, spread = 2 * pair + second;
    if (c->log == AT || c->log == AGAIN) return c->position;
    if (c->log == SPREAD) return spread * 37 % strides * STRIDE + spread * 13 % STRIDE;
    return second * (strides - 1) * STRIDE + pair * 13 % STRIDE;
}

static void build_positions(const struct swap_case *c)
{
    for (unsigned i = 0; i < c->swaps; i++) log_swap(position_of(c, i));
}

static void build_program_of(const struct swap_case *c)
{
    if (strcmp(c->program, "knit") == 0 || strcmp(c->program, "knit-at-1") == 0) build_knit(c->records);
    else if (strcmp(c->program, "plated-knit") == 0) build_plated_knit(c->records);
    else if (strcmp(c->program, "rack") == 0) build_racks(c->records, c->records);
    else if (strcmp(c->program, "dearest") == 0) build_dearest(c->records);
    else if (strcmp(c->program, "two-drops") == 0) build_racks(c->records, c->position);
    else build_listed(find_program(c->program));
}

const struct swap_input *build_swaps(const struct swap_case *c)
{
    memset(&input, 0, sizeof input);
    build_program_of(c);
    if (c->log == FOUND) build_found(c->swaps);
    else if (c->log == FORTH_AND_BACK && c->swaps > 0) build_forth_and_back(c->swaps);
    else build_positions(c);
    input.answer = packed((int)c->number, 0);
    if (input.records != c->records || input.log_length != c->swaps * (size_t)SWAP_SIZE) abort();
    return &input;
}
