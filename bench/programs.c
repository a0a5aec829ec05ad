/* Builds the programs that are measured, following the machine so that every record has its step. */
#include "programs.h"

#include <stdlib.h>
#include <string.h>

/* A program of one kind is about this long. */
enum { KIND_LENGTH = 32000 };

/* In the sweeps each carrier works columns of its own. */
enum { WIDTH = KNITOUT_NEEDLES / KNITOUT_CARRIERS };

struct carrier {
    int active, slot, attached, bed, needle, side; /* 0 left, 1 right */
};

/* A program under way and the machine after it. */
struct builder {
    struct program *program;
    size_t length_most;
    int limit; /* of loops on a hook */
    int racking;
    int loops[2][KNITOUT_NEEDLES];
    struct carrier carriers[KNITOUT_CARRIERS + 1]; /* from 1 */
    uint32_t seed;
};

static const char *const names[KIND_LIMIT] = {
    "", "rack", "drop", "xfer", "in", "out", "miss", "tuck", "knit", "split", "plated-tuck", "plated-knit"
};

const char *kind_name(int kind) { return names[kind]; }

static struct builder begin(struct program *program, const char *name, size_t length_most, int limit, uint32_t seed)
{
    struct builder b = { .program = program, .length_most = length_most, .limit = limit, .seed = seed };
    memset(program, 0, sizeof *program);
    program->name = name;
    return b;
}

static size_t room(const struct builder *b) { return b->length_most - b->program->length; }

static int column_of(const struct builder *b, int bed, int needle)
{
    return bed == KNITOUT_BACK ? needle + b->racking : needle;
}

static int needle_at(const struct builder *b, int bed, int column)
{
    return bed == KNITOUT_BACK ? column - b->racking : column;
}

/* Appends a record that the run comes to. */
static void append(struct builder *b, const uint8_t *record)
{
    struct program *p = b->program;
    size_t size = record_size[record[0]];
    if (size > KNITOUT_PROGRAM_MOST - p->length) abort();
    memcpy(p->bytes + p->length, record, size);
    p->length += size;
    p->records++;
    p->of_kind[record[0]]++;
}

static void rack(struct builder *b, int racking)
{
    append(b, (uint8_t[]){ RACK, (uint8_t)racking });
    b->racking = racking;
}

static void drop(struct builder *b, int bed, int needle)
{
    append(b, (uint8_t[]){ DROP, (uint8_t)bed, (uint8_t)needle });
    b->loops[bed][needle] = 0;
}

/* Follows loops and attachments from one needle to the opposite one. */
static void move(struct builder *b, int bed, int needle, int other)
{
    b->loops[!bed][other] += b->loops[bed][needle];
    b->loops[bed][needle] = 0;
    for (int k = 1; k <= KNITOUT_CARRIERS; k++) {
        struct carrier *c = &b->carriers[k];
        if (!c->attached || c->bed != bed || c->needle != needle) continue;
        c->bed = !bed;
        c->needle = other;
    }
}

/* The needle on the other bed at the same column. */
static int opposite(const struct builder *b, int bed, int needle)
{
    return needle_at(b, !bed, column_of(b, bed, needle));
}

static void xfer(struct builder *b, int bed, int needle)
{
    int other = opposite(b, bed, needle);
    append(b, (uint8_t[]){ XFER, (uint8_t)bed, (uint8_t)needle, (uint8_t)other });
    move(b, bed, needle, other);
}

/* A record of kind 4 to 9 with its one carrier. */
static void stitch(struct builder *b, int kind, int direction, int bed, int needle, int k)
{
    struct carrier *c = &b->carriers[k];
    int other = opposite(b, bed, needle), column = column_of(b, bed, needle);
    append(b, (uint8_t[]){ (uint8_t)kind, (uint8_t)direction, (uint8_t)bed, (uint8_t)needle,
                           (uint8_t)k, (uint8_t)other });
    if (kind == SPLIT) move(b, bed, needle, other);
    if (kind == TUCK) b->loops[bed][needle]++;
    if (kind == KNIT || kind == SPLIT) b->loops[bed][needle] = 1;
    if (kind == IN) *c = (struct carrier){ .active = 1, .slot = column + !direction };
    else if (kind == OUT) *c = (struct carrier){ 0 };
    else if (kind == MISS) c->slot = column + direction;
    else *c = (struct carrier){ 1, column + direction, 1, bed, needle, direction };
}

/* A plated tuck or knit with its two carriers. */
static void plated(struct builder *b, int kind, int direction, int bed, int needle, int k, int second)
{
    struct carrier after = { 1, column_of(b, bed, needle) + direction, 1, bed, needle, direction };
    append(b, (uint8_t[]){ (uint8_t)kind, (uint8_t)direction, (uint8_t)bed, (uint8_t)needle,
                           (uint8_t)k, (uint8_t)second });
    b->loops[bed][needle] = PLATED_LOOPS + (kind == PLATED_TUCK ? b->loops[bed][needle] : 0);
    b->carriers[k] = b->carriers[second] = after;
}

/* All rack, through the 17 rackings. */
static void build_rack(struct builder *b)
{
    for (int i = 0; room(b) >= 2; i++) rack(b, i * 5 % 17 - 8);
}

/* All drop, through the 500 hooks. */
static void build_drop(struct builder *b)
{
    for (int i = 0; room(b) >= 3; i++) drop(b, i / KNITOUT_NEEDLES % 2, i % KNITOUT_NEEDLES);
}

/* Ten carriers come in and tuck once on a bed. */
static void tuck_ten(struct builder *b, int bed)
{
    for (int k = 1; k <= KNITOUT_CARRIERS; k++) {
        stitch(b, IN, RIGHT, bed, WIDTH * (k - 1), k);
        stitch(b, TUCK, RIGHT, bed, WIDTH * (k - 1), k);
    }
}

/* Leads a carrier to the right by misses. */
static void lead(struct builder *b, int k, int misses)
{
    for (int i = 0; i < misses; i++) stitch(b, MISS, RIGHT, KNITOUT_FRONT, b->carriers[k].slot, k);
}

/* Racks that look at ten attachments: on the front bed, which stay; on the back bed, up to 8 slots from their carriers. */
static void build_rack_front(struct builder *b)
{
    tuck_ten(b, KNITOUT_FRONT);
    build_rack(b);
}

static void build_rack_ten(struct builder *b)
{
    tuck_ten(b, KNITOUT_BACK);
    build_rack(b);
}

/* The same with each carrier led away: 19 and 20 slots in turn, or over 20, so that both distances decide, with racks to
   the value in force. */
static void lead_ten(struct builder *b, int misses)
{
    tuck_ten(b, KNITOUT_BACK);
    for (int k = 1; k <= KNITOUT_CARRIERS; k++) lead(b, k, misses);
}

static void build_rack_edge(struct builder *b)
{
    lead_ten(b, KNITOUT_STRETCH_MOST - 1);
    for (int i = 0; room(b) >= 2; i++) rack(b, i % 2 - 1);
}

static void build_rack_far(struct builder *b)
{
    lead_ten(b, KNITOUT_STRETCH_MOST + 1);
    while (room(b) >= 2) rack(b, 0);
}

/* Ten on the back bed, the last of them led away so that only racking -8, the last record's, stretches its yarn. */
static void build_refused_17(struct builder *b)
{
    struct program *p = b->program;
    tuck_ten(b, KNITOUT_BACK);
    lead(b, KNITOUT_CARRIERS, KNITOUT_STRETCH_MOST + 1 + KNITOUT_RACKING_LEAST);
    for (int i = 0; room(b) >= 2 * 2; i++) rack(b, i * 5 % 16 - 7);
    p->answer = packed(KNITOUT_STRETCHED, p->length);
    append(b, (uint8_t[]){ RACK, (uint8_t)KNITOUT_RACKING_LEAST });
}

/* Ten carriers tuck once; then all front needles go to the back bed and return, in turn:
   one xfer in 25 moves a loop and an attachment. */
static void build_xfer(struct builder *b)
{
    tuck_ten(b, KNITOUT_FRONT);
    for (int i = 0; room(b) >= 4; i++) xfer(b, i / KNITOUT_NEEDLES % 2, i % KNITOUT_NEEDLES);
}

/* The dearest transfers: ten carriers are attached at one needle, and each xfer moves all of them across and back. */
static void build_xfer_moved(struct builder *b)
{
    for (int k = 1; k <= KNITOUT_CARRIERS; k++) {
        stitch(b, IN, RIGHT, KNITOUT_FRONT, 0, k);
        stitch(b, KNIT, RIGHT, KNITOUT_FRONT, 0, k);
    }
    for (int i = 0; room(b) >= 4; i++) xfer(b, i % 2, 0);
}

/* Ten carriers come in and go out again: half in, half out. */
static void build_in_out(struct builder *b)
{
    for (int i = 0; room(b) >= 2 * 5 * KNITOUT_CARRIERS; i++) {
        for (int k = 1; k <= KNITOUT_CARRIERS; k++)
            stitch(b, IN, i % 2, k % 2, (i + WIDTH * k) % KNITOUT_NEEDLES, k);
        for (int k = 1; k <= KNITOUT_CARRIERS; k++)
            stitch(b, OUT, 1 - i % 2, k % 2, (i + WIDTH * k) % KNITOUT_NEEDLES, k);
    }
}

/* A stitch of a sweep; a full hook is dropped before it. */
static void sweep_stitch(struct builder *b, int kind, int direction, int bed, int needle, int k)
{
    int here = b->loops[bed][needle], there = b->loops[!bed][needle];
    if (kind == TUCK && here == b->limit) drop(b, bed, needle);
    if (kind == SPLIT && here + there > b->limit) drop(b, here > there ? bed : !bed, needle);
    stitch(b, kind, direction, bed, needle, k);
}

/* Ten in, then all of one kind: each carrier goes right and left in turn over its own 25 columns,
   eight times on the front bed, then on the back. Once the hooks are full, tuck and split need
   one drop for every eight of them. */
static void build_sweep(struct builder *b, int kind)
{
    for (int k = 1; k <= KNITOUT_CARRIERS; k++) stitch(b, IN, RIGHT, KNITOUT_FRONT, WIDTH * (k - 1), k);
    for (int i = 0; room(b) >= 3 + 6; i++) {
        int step = i % WIDTH, k = i / WIDTH % KNITOUT_CARRIERS + 1, pass = i / KNITOUT_NEEDLES;
        int direction = pass % 2 == 0 ? RIGHT : LEFT, bed = pass / 8 % 2;
        int needle = WIDTH * (k - 1) + (direction == RIGHT ? step : WIDTH - 1 - step);
        sweep_stitch(b, kind, direction, bed, needle, k);
    }
}

/* The same with plated stitches: five pairs of carriers go over 50 columns each, the greater carrier first on the back
   bed. A plated tuck needs one drop for every four of them. */
static void build_plated_sweep(struct builder *b, int kind)
{
    enum { PAIRS = KNITOUT_CARRIERS / 2 };
    for (int k = 1; k <= KNITOUT_CARRIERS; k++)
        stitch(b, IN, RIGHT, KNITOUT_FRONT, 2 * WIDTH * ((k - 1) / 2), k);
    for (int i = 0; room(b) >= 3 + 6; i++) {
        int step = i % (2 * WIDTH), pair = i / (2 * WIDTH) % PAIRS, pass = i / KNITOUT_NEEDLES;
        int direction = pass % 2 == 0 ? RIGHT : LEFT, bed = pass / 8 % 2;
        int needle = 2 * WIDTH * pair + (direction == RIGHT ? step : 2 * WIDTH - 1 - step);
        if (kind == PLATED_TUCK && b->loops[bed][needle] + PLATED_LOOPS > b->limit) drop(b, bed, needle);
        plated(b, kind, direction, bed, needle, 2 * pair + 1 + bed, 2 * pair + 2 - bed);
    }
}

unsigned choose_below(uint32_t *seed, unsigned n)
{
    *seed = *seed * 1664525u + 1013904223u;
    return (*seed >> 16) % n;
}

static int choose(struct builder *b, int n) { return (int)choose_below(&b->seed, (unsigned)n); }

/* A column at which both beds have a needle at every racking. */
static int choose_column(struct builder *b) { return 10 + choose(b, 230); }

/* The column of a carrier's attachment if both beds have a needle there, else any. */
static int choose_worked(struct builder *b)
{
    const struct carrier *c = &b->carriers[1 + choose(b, KNITOUT_CARRIERS)];
    int column = column_of(b, c->bed, c->needle);
    if (c->attached && column >= 10 && column < 240) return column;
    return choose_column(b);
}

/* Does a rack stretch some yarn? */
static int any_stretched(const struct builder *b, int racking)
{
    for (int k = 1; k <= KNITOUT_CARRIERS; k++) {
        const struct carrier *c = &b->carriers[k];
        int back = c->attached && c->bed == KNITOUT_BACK;
        if (back && stretches(c->needle + c->side - c->slot, b->racking, racking)) return 1;
    }
    return 0;
}

/* Any racking, or the next one that stretches no yarn: at the latest the one in force. */
static void mixed_rack(struct builder *b)
{
    int racking = choose(b, 17) - 8;
    while (any_stretched(b, racking)) racking = racking == KNITOUT_RACKING_MOST ? KNITOUT_RACKING_LEAST : racking + 1;
    rack(b, racking);
}

/* A drop or an xfer; a drop too where there is no room for the loops. */
static void mixed_hook(struct builder *b, int kind)
{
    int bed = choose(b, 2), needle = needle_at(b, bed, choose_worked(b));
    int loops = b->loops[bed][needle] + b->loops[!bed][opposite(b, bed, needle)];
    if (kind == XFER && loops <= b->limit) xfer(b, bed, needle);
    else drop(b, bed, needle);
}

/* The kind wanted, or another in its place where it would be refused. */
static int allowed(const struct builder *b, int kind, int bed, int needle, int k)
{
    const struct carrier *c = &b->carriers[k];
    int distance = column_of(b, c->bed, c->needle) - column_of(b, bed, needle);
    int loops = b->loops[bed][needle];
    if (kind == MISS) return MISS;
    if (c->attached && abs(distance) > KNITOUT_FLOAT_MOST) return MISS;
    if (kind == TUCK && loops == b->limit) return KNIT;
    if (kind == SPLIT && loops + b->loops[!bed][opposite(b, bed, needle)] > b->limit) return KNIT;
    return kind;
}

/* A record with a carrier: in if it is inactive, else of the kind wanted; it goes on
   rightwards with an even carrier, leftwards with an odd one, and now and then turns. */
static void mixed_stitch(struct builder *b, int kind)
{
    int k = 1 + choose(b, KNITOUT_CARRIERS), bed = choose(b, 2);
    int direction = choose(b, 4) > 0 ? k % 2 == 0 : k % 2;
    const struct carrier *c = &b->carriers[k];
    if (!c->active) {
        stitch(b, IN, direction, bed, needle_at(b, bed, choose_column(b)), k);
        return;
    }
    int column = c->slot - (kind == OUT ? direction : !direction);
    if (column < 10 || column >= 240) {
        direction = !direction;
        column = c->slot - (kind == OUT ? direction : !direction);
    }
    int needle = needle_at(b, bed, column);
    if (kind != OUT) kind = allowed(b, kind, bed, needle, k);
    stitch(b, kind, direction, bed, needle, k);
}

/* A record of one carrier or none. */
static void mixed_record(struct builder *b)
{
    int part = choose(b, 100);
    if (part < 4) mixed_rack(b);
    else if (part < 9) mixed_hook(b, DROP);
    else if (part < 19) mixed_hook(b, XFER);
    else if (part < 22) mixed_stitch(b, OUT);
    else if (part < 35) mixed_stitch(b, MISS);
    else if (part < 50) mixed_stitch(b, TUCK);
    else if (part < 55) mixed_stitch(b, SPLIT);
    else mixed_stitch(b, KNIT);
}

/* Exactly up to the length; the last rack is to 0, if that stretches no yarn. */
static void fill(struct builder *b)
{
    while (room(b) > 3) mixed_rack(b);
    if (room(b) == 3) drop(b, KNITOUT_FRONT, 0);
    else rack(b, any_stretched(b, 0) ? b->racking : 0);
    if (room(b) != 0) abort();
}

/* All kinds but the plated ones, ten carriers, every racking. */
static void build_mixed(struct builder *b)
{
    while (room(b) >= 6 + 2) mixed_record(b);
    fill(b);
}

/* Would a carrier have a long float at the column? */
static int is_far(const struct builder *b, int k, int column)
{
    const struct carrier *c = &b->carriers[k];
    return c->attached && abs(column_of(b, c->bed, c->needle) - column) > KNITOUT_FLOAT_MOST;
}

/* Brings a carrier to the entry of a needle: it goes out where it is, at the front bed, and comes in here. */
static void fetch(struct builder *b, int direction, int bed, int needle, int k)
{
    const struct carrier *c = &b->carriers[k];
    if (c->active && c->slot == column_of(b, bed, needle) + !direction) return;
    if (c->active) stitch(b, OUT, RIGHT, KNITOUT_FRONT, c->slot - 1, k);
    stitch(b, IN, direction, bed, needle, k);
}

/* A plated stitch where its first carrier is, to which the second is brought. A knit in place of a tuck onto a hook
   that is too full; only misses where a float would be long, or where a hook holds one loop only. */
static void mixed_plated(struct builder *b, int kind)
{
    int k = 1 + choose(b, KNITOUT_CARRIERS), second = 1 + (k + choose(b, KNITOUT_CARRIERS - 1)) % KNITOUT_CARRIERS;
    int direction = choose(b, 2), bed = choose(b, 2), column = b->carriers[k].slot - !direction;
    if (column < 10 || column >= 240) column = choose_column(b);
    int needle = needle_at(b, bed, column);
    fetch(b, direction, bed, needle, k);
    fetch(b, direction, bed, needle, second);
    int far = is_far(b, k, column) || is_far(b, second, column);
    if (b->loops[bed][needle] + PLATED_LOOPS > b->limit) kind = PLATED_KNIT;
    if (far || b->limit < PLATED_LOOPS) stitch(b, MISS, direction, bed, needle, k);
    else plated(b, kind, direction, bed, needle, k, second);
}

/* The mixed program with plated stitches in it; one may need four records to bring its carriers. */
static void build_plated_mix(struct builder *b)
{
    while (room(b) >= 4 * 5 + 6 + 2) {
        int part = choose(b, 100);
        if (part < 10) mixed_plated(b, PLATED_TUCK);
        else if (part < 25) mixed_plated(b, PLATED_KNIT);
        else mixed_record(b);
    }
    fill(b);
}

/* A knit with an inactive carrier, then the mixed program: not in, at 0. */
static void build_refused_first(struct builder *b)
{
    struct program *p = b->program;
    append(b, (uint8_t[]){ KNIT, RIGHT, KNITOUT_FRONT, 10, 1 });
    build_mixed(b);
    memset(p->of_kind, 0, sizeof p->of_kind);
    p->of_kind[KNIT] = p->records = 1;
    p->answer = packed(KNITOUT_NOT_IN, 0);
}

/* The mixed program, then drop f.250: a field out of range, at the last record. */
static void build_refused_last(struct builder *b)
{
    struct program *p = b->program;
    b->length_most -= 3;
    build_mixed(b);
    p->answer = packed(KNITOUT_FIELD_RANGE, p->length);
    append(b, (uint8_t[]){ DROP, KNITOUT_FRONT, KNITOUT_NEEDLES });
}

static void build_miss(struct builder *b) { build_sweep(b, MISS); }
static void build_tuck(struct builder *b) { build_sweep(b, TUCK); }
static void build_knit(struct builder *b) { build_sweep(b, KNIT); }
static void build_split(struct builder *b) { build_sweep(b, SPLIT); }
static void build_plated_tuck(struct builder *b) { build_plated_sweep(b, PLATED_TUCK); }
static void build_plated_knit(struct builder *b) { build_plated_sweep(b, PLATED_KNIT); }

static const struct {
    const char *name;
    size_t length_most;
    void (*build)(struct builder *);
    uint8_t at; /* the limit, where it is not 8 */
} parts[PROGRAMS] = {
    { "rack", KIND_LENGTH, build_rack, 0 },
    { "rack-front", KIND_LENGTH, build_rack_front, 0 },
    { "rack-ten", KIND_LENGTH, build_rack_ten, 0 },
    { "rack-edge", KIND_LENGTH, build_rack_edge, 0 },
    { "rack-far", KIND_LENGTH, build_rack_far, 0 },
    { "drop", KIND_LENGTH, build_drop, 0 },
    { "xfer", KIND_LENGTH, build_xfer, 0 },
    { "xfer-moved", KIND_LENGTH, build_xfer_moved, 0 },
    { "in-out", KIND_LENGTH, build_in_out, 0 },
    { "miss", KIND_LENGTH, build_miss, 0 },
    { "tuck", KIND_LENGTH, build_tuck, 0 },
    { "knit", KIND_LENGTH, build_knit, 0 },
    { "split", KIND_LENGTH, build_split, 0 },
    { "plated-tuck", KIND_LENGTH, build_plated_tuck, 0 },
    { "plated-knit", KIND_LENGTH, build_plated_knit, 0 },
    { "knit-at-1", KIND_LENGTH, build_knit, 1 },
    { "mixed-2048", 2048, build_mixed, 0 },
    { "mixed-4096", 4096, build_mixed, 0 },
    { "mixed-8192", 8192, build_mixed, 0 },
    { "mixed-16384", 16384, build_mixed, 0 },
    { "mixed", KNITOUT_PROGRAM_MOST, build_mixed, 0 },
    { "plated-mix", KNITOUT_PROGRAM_MOST, build_plated_mix, 0 },
    { "refused-first", KNITOUT_PROGRAM_MOST, build_refused_first, 0 },
    { "refused-last", KNITOUT_PROGRAM_MOST, build_refused_last, 0 },
    { "refused-17", KIND_LENGTH, build_refused_17, 0 },
};

void build_generated(struct program *program, size_t length, int limit, uint32_t seed)
{
    struct builder b = begin(program, "generated", length, limit, seed);
    build_plated_mix(&b);
}

const struct program *build_program(int i)
{
    static struct program programs[PROGRAMS];
    if (programs[i].name) return &programs[i];
    int limit = parts[i].at ? parts[i].at : KNITOUT_LIMIT_MOST;
    struct builder b = begin(&programs[i], parts[i].name, parts[i].length_most, limit, 1);
    parts[i].build(&b);
    programs[i].at = parts[i].at;
    return &programs[i];
}

const struct program *find_program(const char *name)
{
    for (int i = 0; i < PROGRAMS; i++)
        if (strcmp(parts[i].name, name) == 0) return build_program(i);
    abort();
}
