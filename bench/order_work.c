/* The house order as measured work: all its programs through the library and through plain C. */
#include "orders.h"
#include "plain_order.h"
#include "plain_rewrite.h"
#include "programs.h"
#include "work.h"

#include <inttypes.h>
#include <stdio.h>
#include <string.h>

typedef uint64_t (*order_function)(const uint8_t *program, size_t length, uint8_t *output, size_t output_length,
                                   uint16_t *work, size_t work_count);

typedef uint64_t (*order_at_function)(uint8_t limit, const uint8_t *program, size_t length, uint8_t *output,
                                      size_t output_length, uint16_t *work, size_t work_count);

/* More than any program needs, so that entries past it can be seen to keep their contents. */
enum { OUTPUT = KNITOUT_PROGRAM_MOST + 64, WORK = KNITOUT_PROGRAM_MOST / 2 + 64, PAINT = 0xa5 };

/* Generated programs, their length, and the swaps tried on each. */
enum { GENERATED = 40, GENERATED_LENGTH = 1024, TRIED = 400 };

/* The areas lent to a call, and its answer. */
struct lent {
    _Alignas(LINE) uint8_t output[OUTPUT];
    _Alignas(LINE) uint16_t work[WORK];
    uint64_t answer;
};

static struct lent lent[VERSIONS];
static const struct order_input *in;

static uint64_t order_nothing(const uint8_t *program, size_t length, uint8_t *output, size_t output_length,
                              uint16_t *work, size_t work_count)
{
    (void)program, (void)length, (void)output, (void)output_length, (void)work, (void)work_count;
    return 0;
}

static const order_function versions[VERSIONS] = { order_nothing, knitout_order, plain_order };
static const order_at_function versions_at[VERSIONS] = { 0, knitout_order_at, plain_order_at };

/* Name, bytes, records, and whether it is the longest of its name. */
static void build(int i, struct about *about)
{
    in = build_order(i);
    about->records = in->records;
    about->timed = in->longest;
    snprintf(about->text, sizeof about->text, "%s %lu %u %d", in->name, (unsigned long)in->length,
             in->records, in->longest);
}

static void prepare(enum version v) { memset(&lent[v], PAINT, sizeof lent[v]); }

static void call(enum version v)
{
    struct lent *l = &lent[v];
    l->answer = versions[v](in->program, in->length, l->output, OUTPUT, l->work, WORK);
}

static int contents_differ(void)
{
    return memcmp(lent[LIBRARY].output, lent[PLAIN].output, OUTPUT) != 0
        || memcmp(lent[LIBRARY].work, lent[PLAIN].work, sizeof lent[PLAIN].work) != 0;
}

/* Both versions must give the same answer and leave the same in areas painted alike. */
static int versions_differ(const char *name, size_t length)
{
    if (lent[LIBRARY].answer == lent[PLAIN].answer && !contents_differ()) return 0;
    fprintf(stderr, "bench: order of %s, %lu bytes: library %" PRIx64 ", plain C %" PRIx64 ", contents %s\n", name,
            (unsigned long)length, lent[LIBRARY].answer, lent[PLAIN].answer, contents_differ() ? "differ" : "agree");
    return 1;
}

/* And every program measured is valid. */
static int differs(void)
{
    if (versions_differ(in->name, in->length)) return 1;
    if (lent[PLAIN].answer == KNITOUT_DONE) return 0;
    fprintf(stderr, "bench: order of %s: %" PRIx64 ", expected 0\n", in->name, lent[PLAIN].answer);
    return 1;
}

/* Both versions at a limit, lent so much of their areas. */
static int lent_differs(uint8_t limit, const uint8_t *program, size_t length, size_t output_length, size_t work_count)
{
    for (int v = LIBRARY; v <= PLAIN; v++) {
        prepare(v);
        lent[v].answer = versions_at[v](limit, program, length, lent[v].output, output_length, lent[v].work, work_count);
    }
    return versions_differ("a generated program", length);
}

/* At each limit, in range or not. The entry without one is the one at 8. */
static int limits_differ(const uint8_t *program, size_t length)
{
    static struct lent at_most;
    for (int i = 0; i < LIMITS; i++) {
        if (lent_differs(limits[i], program, length, OUTPUT, WORK)) return 1;
        if (limits[i] == KNITOUT_LIMIT_MOST) at_most = lent[LIBRARY];
    }
    prepare(LIBRARY);
    lent[LIBRARY].answer = knitout_order(program, length, lent[LIBRARY].output, OUTPUT, lent[LIBRARY].work, WORK);
    lent[PLAIN] = at_most;
    return versions_differ("a generated program without a limit", length);
}

/* Lent a program too long, an output or a work area too short or just long enough, at each limit. */
static int sizes_differ(const struct program *p)
{
    static const uint8_t longer[KNITOUT_PROGRAM_MOST + 1];
    for (int i = 0; i < LIMITS * 8; i++) {
        const uint8_t *program = i & 1 ? longer : p->bytes;
        size_t length = i & 1 ? sizeof longer : p->length;
        if (lent_differs(limits[i / 8], program, length, p->length - (i & 2 ? 1 : 0), p->length / 2 - (i & 4 ? 1 : 0)))
            return 1;
    }
    return 0;
}

/* Every front part, whole records or not, and bytes altered: refusals of records. */
static int altered_differs(struct program *p, uint32_t seed)
{
    for (size_t length = 0; length <= p->length; length++)
        if (lent_differs(KNITOUT_LIMIT_MOST, p->bytes, length, OUTPUT, WORK)) return 1;
    for (int i = 0; i < TRIED; i++) {
        size_t at = choose_below(&seed, (unsigned)p->length);
        uint8_t before = p->bytes[at];
        p->bytes[at] = (uint8_t)choose_below(&seed, i % 2 ? 12 : 256);
        int differ = lent_differs(KNITOUT_LIMIT_MOST, p->bytes, p->length, OUTPUT, WORK);
        p->bytes[at] = before;
        if (differ) return 1;
    }
    return 0;
}

/* Makes accepted swaps in a program, so many being tried. */
static void swap_about(struct program *p, uint32_t seed)
{
    static uint8_t output[KNITOUT_PROGRAM_MOST];
    static uint16_t work[KNITOUT_PROGRAM_MOST / 2];
    for (int i = 0; i < TRIED; i++) {
        unsigned position = choose_below(&seed, p->records - 1);
        uint8_t log[] = { SWAP, (uint8_t)(position >> 8), (uint8_t)position };
        if (plain_rewrite(p->bytes, p->length, log, sizeof log, output, sizeof output, work, KNITOUT_PROGRAM_MOST / 2)) continue;
        memcpy(p->bytes, output, p->length);
    }
}

/* The order of some bytes must be this one. */
static int order_is_not(const uint8_t *program, size_t length, const uint8_t *order, const char *what)
{
    if (lent_differs(KNITOUT_LIMIT_MOST, program, length, OUTPUT, WORK)) return 1;
    if (lent[PLAIN].answer == KNITOUT_DONE && memcmp(lent[LIBRARY].output, order, length) == 0) return 0;
    fprintf(stderr, "bench: the order of %s is another one\n", what);
    return 1;
}

/* Ordered twice, and after accepted swaps, a program comes to the same bytes. */
static int orders_differ(struct program *p, uint32_t seed)
{
    static uint8_t order[OUTPUT];
    if (lent_differs(KNITOUT_LIMIT_MOST, p->bytes, p->length, OUTPUT, WORK)) return 1;
    memcpy(order, lent[LIBRARY].output, OUTPUT);
    if (order_is_not(order, p->length, order, "an order")) return 1;
    swap_about(p, seed);
    return order_is_not(p->bytes, p->length, order, "a program after swaps");
}

/* A program that is refused with 17 writes nothing. */
static int stretched_differs(void)
{
    const struct program *p = find_program("refused-17");
    return lent_differs(KNITOUT_LIMIT_MOST, p->bytes, p->length, OUTPUT, WORK) || lent[PLAIN].answer != p->answer
        || lent[PLAIN].output[0] != PAINT;
}

static int checks(void)
{
    static struct program generated;
    for (uint32_t seed = 1; seed <= GENERATED; seed++) {
        build_generated(&generated, GENERATED_LENGTH, limits[1 + seed % KNITOUT_LIMIT_MOST], seed);
        if (limits_differ(generated.bytes, generated.length) || orders_differ(&generated, seed)) return 1;
    }
    return sizes_differ(&generated) || altered_differs(&generated, 1) || stretched_differs();
}

const struct group order_group = { "order", count_orders, build, prepare, call, differs, checks };
