/* The run as measured work: all programs through the library and through plain C. */
#include "plain.h"
#include "programs.h"
#include "work.h"

#include <inttypes.h>
#include <stdio.h>
#include <string.h>

typedef uint64_t (*run_function)(const uint8_t *program, size_t length);
typedef uint64_t (*run_at_function)(uint8_t limit, const uint8_t *program, size_t length);

/* Altered programs; a bit for each number that a run of one may give: 0, 1, 3 to 11, 16 and 17. */
enum { ALTERED = 1000, NUMBERS = 0x30ffb };

static const struct program *program;
static unsigned seen[LIMITS];
static uint64_t answers[VERSIONS];

static uint64_t run_nothing(const uint8_t *bytes, size_t length)
{
    (void)bytes, (void)length;
    return 0;
}

static uint64_t run_nothing_at(uint8_t limit, const uint8_t *bytes, size_t length)
{
    (void)limit, (void)bytes, (void)length;
    return 0;
}

static const run_function versions[VERSIONS] = { run_nothing, knitout_run, plain_run };
static const run_at_function versions_at[VERSIONS] = { run_nothing_at, knitout_run_at, plain_run_at };

static int inputs(void) { return PROGRAMS; }

/* Name, bytes, records, number, place, then the records of each kind. */
static void build(int i, struct about *about)
{
    program = build_program(i);
    about->records = program->records;
    about->timed = 1;
    char *at = about->text, *end = at + sizeof about->text;
    at += snprintf(at, (size_t)(end - at), "%s %lu %u %u %u", program->name, (unsigned long)program->length, program->records,
                   KNITOUT_NUMBER(program->answer), KNITOUT_PLACE(program->answer));
    for (int kind = 1; kind < KIND_LIMIT; kind++)
        if (program->of_kind[kind])
            at += snprintf(at, (size_t)(end - at), " %s=%u", kind_name(kind), program->of_kind[kind]);
}

static void prepare(enum version v) { answers[v] = UINT64_MAX; }

static void call(enum version v)
{
    const struct program *p = program;
    answers[v] = p->at ? versions_at[v](p->at, p->bytes, p->length) : versions[v](p->bytes, p->length);
}

/* Both versions must give the answer that the program was built for. */
static int differs(void)
{
    if (answers[LIBRARY] == program->answer && answers[PLAIN] == program->answer) return 0;
    fprintf(stderr, "bench: run %s: library %" PRIx64 ", plain C %" PRIx64 ", expected %" PRIx64 "\n", program->name,
            answers[LIBRARY], answers[PLAIN], program->answer);
    return 1;
}

/* Two answers to a run of an altered program at a limit. */
static int answers_differ(unsigned limit, uint64_t library, uint64_t plain)
{
    if (library == plain) return 0;
    fprintf(stderr, "bench: run of an altered program at %u: library %" PRIx64 ", plain C %" PRIx64 "\n", limit, library,
            plain);
    return 1;
}

/* Both versions on some bytes, at each limit; the entry without one is the one at 8. */
static int versions_differ(const uint8_t *bytes, size_t length)
{
    uint64_t plain = plain_run(bytes, length);
    if (answers_differ(KNITOUT_LIMIT_MOST, knitout_run(bytes, length), plain)) return 1;
    for (int i = 0; i < LIMITS; i++) {
        uint64_t at = plain_run_at(limits[i], bytes, length);
        if (answers_differ(limits[i], knitout_run_at(limits[i], bytes, length), at)) return 1;
        if (limits[i] == KNITOUT_LIMIT_MOST && answers_differ(limits[i], at, plain)) return 1;
        seen[i] |= 1u << KNITOUT_NUMBER(at);
    }
    return 0;
}

/* With one byte altered. */
static int altered_differs(uint8_t *bytes, size_t length, size_t at, uint8_t value)
{
    uint8_t before = bytes[at];
    bytes[at] = value;
    int differ = versions_differ(bytes, length);
    bytes[at] = before;
    return differ;
}

/* Every front part. */
static int fronts_differ(const struct program *p)
{
    for (size_t length = 0; length <= p->length; length++)
        if (versions_differ(p->bytes, length)) return 1;
    return 0;
}

/* Any byte altered. */
static int bytes_differ(uint8_t *bytes, size_t length)
{
    uint32_t seed = 1;
    for (int i = 0; i < ALTERED; i++) {
        size_t at = choose_below(&seed, (unsigned)length);
        if (altered_differs(bytes, length, at, (uint8_t)choose_below(&seed, 256))) return 1;
        if (altered_differs(bytes, length, at, (uint8_t)(bytes[at] + 1))) return 1;
    }
    return 0;
}

/* A tuck in place of each record with a carrier: full hooks, long floats. */
static int tucks_differ(uint8_t *bytes, size_t length)
{
    for (size_t at = 0; at < length; at += record_size[bytes[at]])
        if (bytes[at] >= MISS && altered_differs(bytes, length, at, TUCK)) return 1;
    return 0;
}

/* Ten in, then misses right and left over 25 columns, but one a tuck, whose needle is left behind. */
static int floats_differ(size_t tuck)
{
    static struct program misses;
    misses = *find_program("miss");
    misses.bytes[(KNITOUT_CARRIERS + tuck) * record_size[MISS]] = TUCK;
    return tucks_differ(misses.bytes, 4000);
}

/* A plated tuck in place of each plated knit: full hooks. */
static int plated_tucks_differ(uint8_t *bytes, size_t length)
{
    for (size_t at = 0; at < length; at += record_size[bytes[at]])
        if (bytes[at] == PLATED_KNIT && altered_differs(bytes, length, at, PLATED_TUCK)) return 1;
    return 0;
}

/* Every carrier, and 0 and 11, in place of both carriers of a plated stitch. */
static int carriers_differ(uint8_t *bytes, size_t length, size_t at)
{
    uint8_t first = bytes[at + 4];
    int differ = 0;
    for (uint8_t k = 0; k <= KNITOUT_CARRIERS + 1; k++)
        for (uint8_t second = 0; second <= KNITOUT_CARRIERS + 1; second++) {
            bytes[at + 4] = k;
            differ |= altered_differs(bytes, length, at + 5, second);
        }
    bytes[at + 4] = first;
    return differ;
}

/* The same at each plated stitch: one yarn twice, carriers not in or elsewhere. */
static int pairs_differ(uint8_t *bytes, size_t length)
{
    for (size_t at = 0; at < length; at += record_size[bytes[at]])
        if (bytes[at] >= PLATED_TUCK && carriers_differ(bytes, length, at)) return 1;
    return 0;
}

/* Two in at f.0, one tucks there, both go right to a column, where a plated stitch follows; there the first, the second
   or neither comes late by a miss. */
static int plated_float_differs(uint8_t kind, uint8_t tucks, uint8_t column, uint8_t late)
{
    uint8_t bytes[512];
    size_t length = 0;
    for (uint8_t z = 0; z <= column; z++)
        for (uint8_t k = 1; k <= 2; k++) {
            uint8_t in[] = { IN, RIGHT, KNITOUT_FRONT, 0, k };
            uint8_t past[] = { z == 1 && k == tucks ? TUCK : MISS, RIGHT, KNITOUT_FRONT, (uint8_t)(z - 1), k };
            if (z > 0 && z == column && k == late) continue;
            memcpy(bytes + length, z == 0 ? in : past, sizeof in);
            length += sizeof in;
        }
    memcpy(bytes + length, (uint8_t[]){ kind, RIGHT, KNITOUT_FRONT, column, 1, 2 }, record_size[kind]);
    return versions_differ(bytes, length + record_size[kind]);
}

static int plated_floats_differ(void)
{
    for (uint8_t column = 0; column <= KNITOUT_FLOAT_MOST + 2; column++)
        for (uint8_t i = 0; i < 9; i++)
            if (plated_float_differs(PLATED_TUCK, i / 3, column, i % 3)
                || plated_float_differs(PLATED_KNIT, i / 3, column, i % 3)) return 1;
    return 0;
}

/* A carrier comes in at column 125, tucks and is led away by misses; then two racks, between any two rackings. */
static int led_racks_differ(uint8_t bed, uint8_t right, uint8_t away, int misses)
{
    enum { COLUMN = 125, LENGTH = 512 };
    uint8_t bytes[LENGTH] = { IN, right, bed, COLUMN, 3, TUCK, right, bed, COLUMN, 3 };
    size_t length = 2 * record_size[IN];
    for (int i = 0; i < misses; i++, length += record_size[MISS]) {
        int column = COLUMN + right + (away == RIGHT ? i : -1 - i);
        memcpy(bytes + length, (uint8_t[]){ MISS, away, KNITOUT_FRONT, (uint8_t)column, 3 }, record_size[MISS]);
    }
    for (int i = 0; i < 17 * 17; i++) {
        uint8_t racks[] = { RACK, (uint8_t)(i / 17 - 8), RACK, (uint8_t)(i % 17 - 8) };
        memcpy(bytes + length, racks, sizeof racks);
        if (versions_differ(bytes, length + sizeof racks)) return 1;
    }
    return 0;
}

/* On both beds, attached at both sides, led away to both sides, up to where no rack comes to 20 slots. */
static int racks_differ(void)
{
    for (int misses = 0; misses <= KNITOUT_STRETCH_MOST + KNITOUT_RACKING_MOST + 2; misses++)
        for (uint8_t i = 0; i < 8; i++)
            if (led_racks_differ(i / 4, i / 2 % 2, i % 2, misses)) return 1;
    return 0;
}

/* Both versions on altered plated stitches. */
static int plated_differs(void)
{
    static struct program generated, mix;
    build_generated(&generated, 4096, KNITOUT_LIMIT_MOST, 1);
    mix = *find_program("plated-mix");
    return fronts_differ(&generated) || pairs_differ(generated.bytes, generated.length) || plated_floats_differ()
        || bytes_differ(mix.bytes, mix.length) || plated_tucks_differ(mix.bytes, mix.length);
}

/* Every number of the run must have come up at each limit, and 15 alone at others. */
static int numbers_missed(void)
{
    for (int i = 0; i < LIMITS; i++) {
        if (seen[i] == (limit_in_range(limits[i]) ? NUMBERS : 1u << KNITOUT_BAD_STATE)) continue;
        fprintf(stderr, "bench: altered programs at %u came to the numbers %x only\n", limits[i], seen[i]);
        return 1;
    }
    return 0;
}

/* Altered programs, and one that is too long. */
static int checks(void)
{
    static const uint8_t longer[KNITOUT_PROGRAM_MOST + 1];
    static struct program mixed;
    mixed = *find_program("mixed");
    if (versions_differ(longer, sizeof longer)) return 1;
    if (fronts_differ(find_program("mixed-4096")) || floats_differ(0) || floats_differ(24)) return 1;
    if (bytes_differ(mixed.bytes, mixed.length) || tucks_differ(mixed.bytes, mixed.length)) return 1;
    return plated_differs() || racks_differ() || numbers_missed();
}

const struct group run_group = { "run", inputs, build, prepare, call, differs, checks };
