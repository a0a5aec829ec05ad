/* The rewriter as measured work: all cases of swaps through the library and through plain C. */
#include "plain_rewrite.h"
#include "programs.h"
#include "swaps.h"
#include "work.h"

#include <inttypes.h>
#include <stdio.h>
#include <string.h>

typedef uint64_t (*rewrite_function)(const uint8_t *program, size_t length, const uint8_t *log, size_t log_length,
                                     uint8_t *output, size_t output_length, uint16_t *work, size_t work_count);

typedef uint64_t (*rewrite_at_function)(uint8_t limit, const uint8_t *program, size_t length, const uint8_t *log,
                                        size_t log_length, uint8_t *output, size_t output_length, uint16_t *work,
                                        size_t work_count);

/* More than any program needs, so that entries past it can be seen to keep their contents. */
enum { OUTPUT = KNITOUT_PROGRAM_MOST + 64, WORK = KNITOUT_PROGRAM_MOST / 2 + 64, PAINT = 0xa5 };

/* The areas lent to a call, and its answer. */
struct lent {
    _Alignas(LINE) uint8_t output[OUTPUT];
    _Alignas(LINE) uint16_t work[WORK];
    uint64_t answer;
};

static struct lent lent[VERSIONS];
static const struct swap_case *swap_case;
static const struct swap_input *in;
static const uint8_t *log_bytes;
static size_t log_length;
static uint8_t limit; /* of the entry at a limit; 0: the entry at 8 */

static uint64_t rewrite_nothing(const uint8_t *program, size_t length, const uint8_t *log, size_t bytes,
                                uint8_t *output, size_t output_length, uint16_t *work, size_t work_count)
{
    (void)program, (void)length, (void)log, (void)bytes;
    (void)output, (void)output_length, (void)work, (void)work_count;
    return 0;
}

static uint64_t rewrite_nothing_at(uint8_t limit, const uint8_t *program, size_t length, const uint8_t *log, size_t bytes,
                                   uint8_t *output, size_t output_length, uint16_t *work, size_t work_count)
{
    (void)limit, (void)program, (void)length, (void)log, (void)bytes;
    (void)output, (void)output_length, (void)work, (void)work_count;
    return 0;
}

static const rewrite_function versions[VERSIONS] = { rewrite_nothing, knitout_rewrite, plain_rewrite };
static const rewrite_at_function versions_at[VERSIONS] = { rewrite_nothing_at, knitout_rewrite_at, plain_rewrite_at };

static int inputs(void)
{
    int cases;
    list_swaps(&cases);
    return cases;
}

/* Hands a log over in place of the case's own. */
static void use_log(const uint8_t *log, size_t length)
{
    log_bytes = log;
    log_length = length;
}

static void use_case(int i)
{
    int cases;
    swap_case = &list_swaps(&cases)[i];
    in = build_swaps(swap_case);
    limit = swap_case->at;
    use_log(in->log, in->log_length);
}

/* Table, program, bytes, records, log, position, swaps, number. */
static void build(int i, struct about *about)
{
    static const char *const logs[] = { "one", "spread", "ends", "found", "forth-and-back", "again" };
    use_case(i);
    about->records = in->records + swap_case->swaps;
    about->timed = swap_case->log != AT;
    snprintf(about->text, sizeof about->text, "%s %s %lu %u %s %u %u %u", swap_case->table, swap_case->program,
             (unsigned long)in->length, in->records, logs[swap_case->log], swap_case->position, swap_case->swaps,
             swap_case->number);
}

static void prepare(enum version v) { memset(&lent[v], PAINT, sizeof lent[v]); }

static void call_at(enum version v, uint8_t at)
{
    struct lent *l = &lent[v];
    l->answer = versions_at[v](at, in->program, in->length, log_bytes, log_length, l->output, OUTPUT, l->work, WORK);
}

static void call(enum version v)
{
    struct lent *l = &lent[v];
    if (limit) call_at(v, limit);
    else l->answer = versions[v](in->program, in->length, log_bytes, log_length, l->output, OUTPUT, l->work, WORK);
}

static int contents_differ(void)
{
    return memcmp(lent[LIBRARY].output, lent[PLAIN].output, OUTPUT) != 0
        || memcmp(lent[LIBRARY].work, lent[PLAIN].work, sizeof lent[PLAIN].work) != 0;
}

/* Both versions must give the same answer and leave the same in areas painted alike. */
static int versions_differ(void)
{
    if (lent[LIBRARY].answer == lent[PLAIN].answer && !contents_differ()) return 0;
    fprintf(stderr, "bench: rewrite %s of %u records, log of %lu bytes: library %" PRIx64 ", plain C %" PRIx64
            ", contents %s\n", swap_case->program, in->records, (unsigned long)log_length, lent[LIBRARY].answer,
            lent[PLAIN].answer, contents_differ() ? "differ" : "agree");
    return 1;
}

/* And the answer must be the one expected. */
static int differs(void)
{
    if (versions_differ()) return 1;
    if (lent[PLAIN].answer == in->answer) return 0;
    fprintf(stderr, "bench: rewrite %s of %u records: %" PRIx64 ", expected %" PRIx64 "\n", swap_case->program,
            in->records, lent[PLAIN].answer, in->answer);
    return 1;
}

static int log_differs(const uint8_t *log, size_t length)
{
    use_log(log, length);
    call(LIBRARY);
    call(PLAIN);
    return versions_differ();
}

/* Both versions with one swap at every pair of neighbours, tied or not, and past the end. */
static int neighbours_differ(void)
{
    for (unsigned i = 0; i <= in->records; i++) {
        uint8_t log[] = { SWAP, (uint8_t)(i >> 8), (uint8_t)i };
        if (log_differs(log, sizeof log)) return 1;
    }
    return 0;
}

/* Logs cut short after a swap and before one, and one of another kind. */
static int torn_differs(void)
{
    static const uint8_t torn[] = { SWAP + 1, 0, 2 };
    return log_differs(in->log, SWAP_SIZE + 1) || log_differs(in->log, SWAP_SIZE - 1) || log_differs(torn, sizeof torn);
}

/* The whole log at each limit, in range or not; a call refused before its program is looked at writes nothing. */
static int limits_differ(void)
{
    for (int i = 0; i < LIMITS; i++) {
        for (int v = LIBRARY; v <= PLAIN; v++) {
            prepare(v);
            call_at(v, limits[i]);
        }
        if (versions_differ()) return 1;
        if (limit_in_range(limits[i]) != (lent[PLAIN].answer != packed(KNITOUT_BAD_STATE, 0))) return 1;
    }
    return 0;
}

/* Lent a program or a log too long, an output or a work area too short, and any of these together, at each limit: 15 goes
   before 1, and 1 before 2. */
static int sizes_differ(void)
{
    static const uint8_t longer[KNITOUT_PROGRAM_MOST + 1];
    for (int i = 0; i < LIMITS * 16; i++) {
        const uint8_t *program = i & 1 ? longer : in->program, *log = i & 2 ? longer : in->log;
        size_t length = i & 1 ? sizeof longer : in->length, log_size = i & 2 ? sizeof longer : in->log_length;
        size_t output_length = i & 4 ? in->length - 1 : OUTPUT, work_count = i & 8 ? in->length / 2 - 1 : WORK;
        for (int v = LIBRARY; v <= PLAIN; v++) {
            prepare(v);
            lent[v].answer = versions_at[v](limits[i / 16], program, length, log, log_size, lent[v].output, output_length,
                                            lent[v].work, work_count);
        }
        if (versions_differ()) return 1;
    }
    return 0;
}

/* A program that is refused with 17 writes nothing. */
static int stretched_differs(void)
{
    const struct program *p = find_program("refused-17");
    struct swap_case refused = { "", p->name, p->records, AT, 0, 1, KNITOUT_STRETCHED, 0 };
    swap_case = &refused;
    in = build_swaps(swap_case);
    limit = 0;
    prepare(LIBRARY);
    prepare(PLAIN);
    return log_differs(in->log, in->log_length) || lent[PLAIN].answer != p->answer || lent[PLAIN].output[0] != PAINT;
}

/* Each case's first swap alone, since a swap made twice does not show; every swap of the mixed programs; torn logs;
   limits and sizes; a rack that stretches a yarn. */
static int checks(void)
{
    for (int i = 0; i < inputs(); i++) {
        use_case(i);
        prepare(LIBRARY);
        prepare(PLAIN);
        if (swap_case->swaps > 1 && log_differs(in->log, SWAP_SIZE)) return 1;
        if (swap_case->log != FOUND || swap_case->swaps == 0) continue;
        if (neighbours_differ() || torn_differs()) return 1;
        use_log(in->log, in->log_length);
        if (limits_differ() || sizes_differ()) return 1;
    }
    return stretched_differs();
}

const struct group rewrite_group = { "rewrite", inputs, build, prepare, call, differs, checks };
