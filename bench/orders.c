/* Builds the programs on which the house order is measured. All are valid: the run must accept them. */
#include "orders.h"

#include "programs.h"

#include <stdlib.h>
#include <string.h>

/* In intarsia each carrier works columns of its own. A row of lace over so many needles takes nearly 2,048 bytes, the
   shortest length, so that each length holds whole rows. */
enum { WIDTH = KNITOUT_NEEDLES / KNITOUT_CARRIERS, LAST = KNITOUT_NEEDLES - 1, LACE = 226 };

static struct order_input input;
static size_t length_most;

/* Appends a record if there is room for it. */
static int append(const uint8_t *record)
{
    size_t size = record_size[record[0]];
    if (size > length_most - input.length) return 0;
    memcpy(input.program + input.length, record, size);
    input.length += size;
    input.records++;
    return 1;
}

static int drop(unsigned bed, unsigned needle) { return append((uint8_t[]){ DROP, (uint8_t)bed, (uint8_t)needle }); }

static int stitch(unsigned kind, unsigned direction, unsigned bed, unsigned needle, unsigned k)
{
    return append((uint8_t[]){ (uint8_t)kind, (uint8_t)direction, (uint8_t)bed, (uint8_t)needle, (uint8_t)k });
}

/* A row of knits over some needles from a first one on. */
static int knit_row(unsigned direction, unsigned bed, unsigned first, unsigned width, unsigned k)
{
    for (unsigned i = 0; i < width; i++)
        if (!stitch(KNIT, direction, bed, first + (direction == RIGHT ? i : width - 1 - i), k)) return 0;
    return 1;
}

/* Rows right and left in turn over a whole bed, by one carrier. */
static void build_sheet(unsigned bed, unsigned k)
{
    stitch(IN, RIGHT, bed, 0, k);
    for (unsigned row = 0; knit_row(row % 2 == 0 ? RIGHT : LEFT, bed, 0, KNITOUT_NEEDLES, k); row++) continue;
}

/* One sheet: every record is tied to the one before. */
static void build_rows(void) { build_sheet(KNITOUT_FRONT, 3); }

/* Xfers of every second needle to the other bed at the racking in force. */
static void xfer_row(unsigned bed, unsigned shift)
{
    for (unsigned i = 0; i < LACE; i += 2)
        append((uint8_t[]){ XFER, (uint8_t)bed, (uint8_t)i, (uint8_t)(i + shift) });
}

/* A row, then every second loop goes to the back bed and, at racking 1, onto the needle beside its own. */
static void build_lace(void)
{
    stitch(IN, RIGHT, KNITOUT_FRONT, 0, 3);
    for (unsigned row = 0; knit_row(row % 2 == 0 ? RIGHT : LEFT, KNITOUT_FRONT, 0, LACE, 3); row++) {
        xfer_row(KNITOUT_FRONT, 0);
        append((uint8_t[]){ RACK, 1 });
        xfer_row(KNITOUT_BACK, 1);
        append((uint8_t[]){ RACK, 0 });
    }
}

/* A tube: a row on the front by carrier 3, one on the back by carrier 4, and both back again. No record of the one is
   tied to any of the other, and those of the front go first. */
static void build_tubular(void)
{
    stitch(IN, RIGHT, KNITOUT_FRONT, 0, 3);
    stitch(IN, LEFT, KNITOUT_BACK, LAST, 4);
    for (unsigned row = 0;; row++) {
        unsigned bed = row % 2, left = row / 2 % 2 != bed;
        if (!knit_row(left ? LEFT : RIGHT, bed, 0, KNITOUT_NEEDLES, 3 + bed)) return;
    }
}

/* Ten carriers side by side on the front bed, row by row; a needle at the border of two is worked by one only, but its
   yarns meet. */
static void build_intarsia(void)
{
    for (unsigned k = 0; k < KNITOUT_CARRIERS; k++) stitch(IN, RIGHT, KNITOUT_FRONT, WIDTH * k, k + 1);
    for (unsigned i = 0;; i++) {
        unsigned k = i % KNITOUT_CARRIERS, left = i / KNITOUT_CARRIERS % 2;
        if (!knit_row(left ? LEFT : RIGHT, KNITOUT_FRONT, WIDTH * k, WIDTH, k + 1)) return;
    }
}

/* The same record by record, even carriers on the back bed: no record is tied to one of another carrier. */
static void build_ten(void)
{
    for (unsigned k = 0; k < KNITOUT_CARRIERS; k++) stitch(IN, RIGHT, k % 2, WIDTH * k, k + 1);
    for (unsigned i = 0;; i++) {
        unsigned k = i % KNITOUT_CARRIERS, round = i / KNITOUT_CARRIERS, left = round / WIDTH % 2, step = round % WIDTH;
        if (!stitch(KNIT, !left, k % 2, WIDTH * k + (left ? WIDTH - 1 - step : step), k + 1)) return;
    }
}

/* Two whole sheets, one behind the other, of which no record is tied to one of the other. */
static void build_sheets(unsigned bed, unsigned k, unsigned second_bed, unsigned second_k)
{
    size_t most = length_most;
    length_most = most / 2;
    build_sheet(bed, k);
    length_most = most;
    build_sheet(second_bed, second_k);
}

/* The front one first, where it stays. */
static void build_sheets_kept(void) { build_sheets(KNITOUT_FRONT, 3, KNITOUT_BACK, 4); }

/* The back one first: each record of the front passes all of it. */
static void build_sheets_passed(void) { build_sheets(KNITOUT_BACK, 4, KNITOUT_FRONT, 3); }

/* A drop at each needle of both beds, ascending or descending. None is tied to another. */
static void build_drops_up(void)
{
    for (unsigned i = 0; i < KNITOUT_HOOKS && drop(i / KNITOUT_NEEDLES, i % KNITOUT_NEEDLES); i++) continue;
}

static void build_drops_down(void)
{
    for (unsigned i = KNITOUT_HOOKS; i > 0 && drop((i - 1) / KNITOUT_NEEDLES, (i - 1) % KNITOUT_NEEDLES); i--) continue;
}

/* Drops at some hooks, as many at each, hook by hook. */
static void build_blocks(unsigned count, const uint8_t hooks[][2])
{
    size_t most = length_most;
    for (unsigned i = 0; i < count; i++) {
        length_most = most * (i + 1) / count;
        while (drop(hooks[i][0], hooks[i][1])) continue;
    }
}

/* Drops at one needle, then as many at a lesser one far from it: each of these passes all of the first. */
static void build_drops_passed(void)
{
    build_blocks(2, (const uint8_t[][2]){ { KNITOUT_FRONT, 200 }, { KNITOUT_FRONT, 100 } });
}

/* The dearest found: the shortest records at hooks so near to each other that their extents must be compared, each of
   which passes all of the hooks before. */
static void build_worst(void)
{
    build_blocks(4, (const uint8_t[][2]){ { KNITOUT_BACK, 101 }, { KNITOUT_BACK, 100 },
                                          { KNITOUT_FRONT, 101 }, { KNITOUT_FRONT, 100 } });
}

static void use_listed(const struct program *p)
{
    memcpy(input.program, p->bytes, p->length);
    input.length = p->length;
    input.records = p->records;
}

/* The mixed programs of the run: four records of a hundred are racks. */
static void build_mixed(void)
{
    static const char *const names[] = { "mixed-2048", "mixed-4096", "mixed-8192", "mixed-16384", "mixed" };
    for (int i = 0; i < ORDER_LENGTHS; i++)
        if (find_program(names[i])->length == length_most) use_listed(find_program(names[i]));
}

static void build_plated_mix(void)
{
    static struct program generated;
    build_generated(&generated, length_most, KNITOUT_LIMIT_MOST, 1);
    use_listed(&generated);
}

static const struct {
    const char *name;
    size_t length_most; /* of the longest; 0: as bench/run gives it */
    void (*build)(void);
} parts[] = {
    { "rows", KNITOUT_PROGRAM_MOST, build_rows },
    { "lace", KNITOUT_PROGRAM_MOST, build_lace },
    { "mixed", KNITOUT_PROGRAM_MOST, build_mixed },
    { "plated-mix", KNITOUT_PROGRAM_MOST, build_plated_mix },
    { "intarsia", KNITOUT_PROGRAM_MOST, build_intarsia },
    { "sheets-kept", KNITOUT_PROGRAM_MOST, build_sheets_kept },
    { "tubular", KNITOUT_PROGRAM_MOST, build_tubular },
    { "ten", KNITOUT_PROGRAM_MOST, build_ten },
    { "sheets-passed", KNITOUT_PROGRAM_MOST, build_sheets_passed },
    { "drops-up", 3 * KNITOUT_HOOKS, build_drops_up },
    { "drops-down", 3 * KNITOUT_HOOKS, build_drops_down },
    { "drops-passed", KNITOUT_PROGRAM_MOST, build_drops_passed },
    { "worst", 0, build_worst },
};

/* The worst one takes some 40 seconds to count at its full length: bench/run gives the length. */
static size_t worst_length(void)
{
    const char *given = getenv("WORST_BYTES");
    size_t length = given ? strtoul(given, NULL, 10) : KNITOUT_PROGRAM_MOST;
    return length < KNITOUT_PROGRAM_MOST ? length : KNITOUT_PROGRAM_MOST;
}

int count_orders(void) { return (int)(sizeof parts / sizeof *parts) * ORDER_LENGTHS; }

const struct order_input *build_order(int i)
{
    int part = i / ORDER_LENGTHS, shorter = ORDER_LENGTHS - 1 - i % ORDER_LENGTHS;
    memset(&input, 0, sizeof input);
    input.name = parts[part].name;
    input.longest = shorter == 0;
    length_most = (parts[part].length_most ? parts[part].length_most : worst_length()) >> shorter;
    parts[part].build();
    if (input.records == 0) abort();
    return &input;
}
