/* Builds the pairs of records on which the tie is measured, and checks on generated ones that the library and plain C
   agree. */
#include "ties.h"

#include "plain_tie.h"
#include "programs.h"

#include <stdio.h>

enum { GENERATED = 400000, RACKED = 2, FAR_RACKED = 9 };

/* One pair: both are lent six bytes. */
struct one_pair {
    const char *name;
    int8_t racking;
    uint8_t first[KNITOUT_RECORD_MOST], second[KNITOUT_RECORD_MOST];
    struct knitout_tied told;
};

#define TOLD(number) { 0, 0, number, 0, 0, 0, 0 }
#define BY_RACK { 0, 0, KNITOUT_TIED, KNITOUT_BY_RACK, 0, 0, 0 }
#define BY_CARRIER(carrier) { 0, 0, KNITOUT_TIED, KNITOUT_BY_CARRIER, carrier, 0, 0 }
#define BY_EXTENTS(left, right, low, high) { left, right, KNITOUT_TIED, KNITOUT_BY_EXTENTS, 0, low, high }

/* At racking 2 f.52 and b.50 are opposite. */
static const struct one_pair ones[] = {
    { "racks", RACKED, { RACK, 3 }, { RACK, 0xfe }, BY_RACK },
    { "rack-last", RACKED, { PLATED_KNIT, RIGHT, 1, 50, 7, 3 }, { RACK, 3 }, BY_RACK },
    { "carrier", RACKED, { KNIT, RIGHT, 0, 52, 4 }, { KNIT, RIGHT, 0, 53, 4 }, BY_CARRIER(4) },
    { "extents", RACKED, { KNIT, RIGHT, 0, 52, 5 }, { KNIT, LEFT, 1, 51, 4 }, BY_EXTENTS(105, 105, 4, 5) },
    { "extents-drops", RACKED, { DROP, 1, 50 }, { DROP, 1, 50 }, BY_EXTENTS(104, 104, 11, 11) },
    { "extents-xfer-split", RACKED, { XFER, 1, 50, 52 }, { SPLIT, RIGHT, 0, 52, 4, 50 }, BY_EXTENTS(104, 104, 0, 11) },
    { "far", RACKED, { KNIT, RIGHT, 0, 52, 5 }, { KNIT, LEFT, 1, 150, 4 }, TOLD(KNITOUT_DONE) },
    { "far-misses", RACKED, { MISS, RIGHT, 0, 52, 5 }, { MISS, LEFT, 1, 150, 4 }, TOLD(KNITOUT_DONE) },
    { "opposite", RACKED, { KNIT, RIGHT, 0, 52, 4 }, { KNIT, LEFT, 1, 50, 5 }, TOLD(KNITOUT_DONE) },
    { "opposite-drops", RACKED, { DROP, 0, 52 }, { DROP, 1, 50 }, TOLD(KNITOUT_DONE) },
    { "plated-carrier", RACKED, { PLATED_KNIT, RIGHT, 0, 52, 7, 3 }, { PLATED_TUCK, LEFT, 1, 50, 3, 7 }, BY_CARRIER(3) },
    { "plated-extents", RACKED, { PLATED_KNIT, RIGHT, 0, 52, 6, 2 }, { PLATED_TUCK, LEFT, 1, 50, 8, 5 },
      BY_EXTENTS(103, 105, 5, 6) },
    { "plated-far", RACKED, { PLATED_KNIT, RIGHT, 0, 52, 6, 2 }, { PLATED_TUCK, LEFT, 1, 150, 8, 5 }, TOLD(KNITOUT_DONE) },
    { "plated-opposite", RACKED, { PLATED_KNIT, RIGHT, 0, 52, 4, 2 }, { PLATED_TUCK, LEFT, 1, 50, 8, 5 },
      TOLD(KNITOUT_DONE) },
    { "dearest", RACKED, { PLATED_TUCK, RIGHT, 1, 50, 6, 3 }, { PLATED_TUCK, RIGHT, 1, 50, 5, 4 },
      BY_EXTENTS(103, 105, 4, 11) },
    { "refused-15", FAR_RACKED, { KNIT, RIGHT, 0, 52, 4 }, { KNIT, LEFT, 1, 50, 5 }, TOLD(KNITOUT_BAD_STATE) },
    { "refused-3-first", RACKED, { KIND_LIMIT }, { KNIT, LEFT, 1, 50, 5 }, TOLD(KNITOUT_UNKNOWN_KIND) },
    { "refused-5-second", RACKED, { PLATED_KNIT, RIGHT, 0, 52, 4, 2 }, { PLATED_TUCK, LEFT, 1, 50, 5, KNITOUT_CARRIERS + 1 },
      TOLD(KNITOUT_FIELD_RANGE) },
};

#undef TOLD
#undef BY_RACK
#undef BY_CARRIER
#undef BY_EXTENTS

/* Programs whose neighbours are looked at, at the racking in force. */
static const char *const programs[] = { "mixed", "plated-mix" };

enum { ONES = sizeof ones / sizeof ones[0], PROGRAM_INPUTS = sizeof programs / sizeof programs[0] };

static struct tie_input input;

/* How often each number was given, where the first record is none (1) or is one (0); and each reason. */
static unsigned seen[2][KNITOUT_STRETCHED + 1], seen_by[KNITOUT_BY_EXTENTS + 1];

int ties_agree(const struct knitout_tied *a, const struct knitout_tied *b)
{
    return a->left == b->left && a->right == b->right && a->number == b->number && a->by == b->by
        && a->carrier == b->carrier && a->low == b->low && a->high == b->high;
}

int count_ties(void) { return ONES + PROGRAM_INPUTS; }

static void build_one(const struct one_pair *one)
{
    input.name = one->name;
    input.pairs = 1;
    input.pair[0] = (struct tie_pair){ one->racking, one->first, one->second, KNITOUT_RECORD_MOST, KNITOUT_RECORD_MOST };
    input.told = one->told;
}

/* Each record of a program with the next. */
static void build_neighbours(const struct program *p)
{
    int8_t racking = 0;
    const uint8_t *end = p->bytes + p->length, *x = p->bytes, *y;
    input.name = p->name;
    input.pairs = 0;
    for (; (y = x + record_size[x[0]]) < end; x = y) {
        input.pair[input.pairs++] = (struct tie_pair){ racking, x, y, (size_t)(end - x), (size_t)(end - y) };
        if (x[0] == RACK) racking = (int8_t)x[1];
    }
}

const struct tie_input *build_tie(int i)
{
    if (i < ONES) build_one(&ones[i]);
    else build_neighbours(find_program(programs[i - ONES]));
    return &input;
}

/* A needle, mostly one of a few. */
static uint8_t choose_needle(uint32_t *seed)
{
    if (choose_below(seed, 8) == 0) return (uint8_t)choose_below(seed, KNITOUT_NEEDLES);
    return (uint8_t)(100 + choose_below(seed, 6));
}

static uint8_t choose_carrier(uint32_t *seed) { return (uint8_t)(1 + choose_below(seed, KNITOUT_CARRIERS)); }

/* The fields of a record with a carrier. */
static void choose_stitch(uint8_t *record, uint32_t *seed)
{
    record[1] = (uint8_t)choose_below(seed, 2);
    record[2] = (uint8_t)choose_below(seed, 2);
    record[3] = choose_needle(seed);
    record[4] = choose_carrier(seed);
    record[5] = record[0] >= PLATED_TUCK ? choose_carrier(seed) : choose_needle(seed);
}

/* A record of any kind, its fields in range. */
static void choose_record(uint8_t record[KNITOUT_RECORD_MOST], uint32_t *seed)
{
    record[0] = (uint8_t)(RACK + choose_below(seed, PLATED_KNIT));
    choose_stitch(record, seed);
    if (record[0] >= IN) return;
    record[2] = choose_needle(seed);
    if (record[0] == RACK) record[1] = (uint8_t)(choose_below(seed, 17) - 8u);
}

/* Alters a byte of some records, to the next value or to any; gives a length, at times too short. */
static size_t alter_record(uint8_t record[KNITOUT_RECORD_MOST], uint32_t *seed)
{
    uint8_t *at = &record[choose_below(seed, KNITOUT_RECORD_MOST)];
    if (choose_below(seed, 8) == 0) *at = (uint8_t)(choose_below(seed, 2) ? *at + 1u : choose_below(seed, 256));
    return choose_below(seed, 16) ? KNITOUT_RECORD_MOST : choose_below(seed, KNITOUT_RECORD_MOST);
}

/* A racking, at times any byte. */
static int8_t choose_racking(uint32_t *seed)
{
    return (int8_t)(choose_below(seed, 16) ? choose_below(seed, 17) - 8u : choose_below(seed, 256));
}

static void print_tie(const char *version, const struct knitout_tied *t)
{
    fprintf(stderr, " %s %u by %u, carrier %u, %d to %d, %u to %u;", version, t->number, t->by, t->carrier, (int)t->left,
            (int)t->right, t->low, t->high);
}

/* One pair by both versions. */
static int pair_differs(const struct tie_pair *p)
{
    struct knitout_tied library = knitout_tie(p->racking, p->first, p->first_length, p->second, p->second_length);
    struct knitout_tied plain = plain_tie(p->racking, p->first, p->first_length, p->second, p->second_length);
    if (!ties_agree(&library, &plain)) {
        fputs("bench: generated tie:", stderr);
        print_tie("library", &library);
        print_tie("plain C", &plain);
        fputs("\n", stderr);
        return 1;
    }
    static const uint8_t rack[] = { RACK, 0 };
    int none = plain_tie(0, p->first, p->first_length, rack, sizeof rack).number != KNITOUT_TIED;
    seen[none][plain.number]++;
    seen_by[plain.by]++;
    return 0;
}

/* Was a refusal never given of the first record or of the second, or a racking never refused, or a reason never given? */
static int not_seen(void)
{
    int missing = !seen[0][KNITOUT_DONE] || !seen[0][KNITOUT_BAD_STATE] || !seen[1][KNITOUT_BAD_STATE];
    for (int number = KNITOUT_UNKNOWN_KIND; number <= KNITOUT_FIELD_RANGE; number++)
        missing |= !seen[0][number] || !seen[1][number];
    for (int by = KNITOUT_UNTIED; by <= KNITOUT_BY_EXTENTS; by++) missing |= !seen_by[by];
    if (missing) fputs("bench: generated tie: a number or a reason was never given\n", stderr);
    return missing;
}

/* No bytes, which may be null. */
static int nothing_differs(void)
{
    static const uint8_t rack[] = { RACK, 0 };
    const struct tie_pair pairs[] = { { 0, NULL, rack, 0, 2 }, { 0, rack, NULL, 2, 0 }, { 0, NULL, NULL, 0, 0 } };
    for (int i = 0; i < 3; i++)
        if (pair_differs(&pairs[i])) return 1;
    return 0;
}

int generated_ties_differ(void)
{
    uint32_t seed = 1;
    for (int i = 0; i < GENERATED; i++) {
        uint8_t first[KNITOUT_RECORD_MOST], second[KNITOUT_RECORD_MOST];
        choose_record(first, &seed);
        choose_record(second, &seed);
        size_t first_length = alter_record(first, &seed), second_length = alter_record(second, &seed);
        struct tie_pair pair = { choose_racking(&seed), first, second, first_length, second_length };
        if (pair_differs(&pair)) return 1;
    }
    return nothing_differs() || not_seen();
}
