/* The rewriter in plain C, written for speed: one run, one copy, one pass for starts and rackings, swaps in place. */
#include "plain.h"

#include "kinds.h"

#include <string.h>

/* The racking is kept of every 64th record. */
enum { STRIDE = 64, MARKS = KNITOUT_PROGRAM_MOST / 2 / STRIDE };

/* The copy of the program, its records' starts and the rackings kept. The run has checked every field. */
struct copy {
    uint8_t *bytes;
    uint16_t *starts;
    size_t count;
    int8_t marks[MARKS];
};

/* The racking in force at record i: no more than 63 records are looked at. */
static inline int racking_at(const struct copy *c, size_t i)
{
    int racking = c->marks[i / STRIDE];
    for (size_t j = i / STRIDE * STRIDE; j < i; j++) {
        size_t at = c->starts[j];
        if (SELDOM(c->bytes[at] == RACK)) racking = (int8_t)c->bytes[at + 1];
    }
    return racking;
}

static inline int tied(const struct copy *c, size_t i, const uint8_t *x, const uint8_t *y)
{
    return x[0] == RACK || y[0] == RACK || least_shared(x, y) || extents_meet(x, y, racking_at(c, i));
}

/* A record of 3 to 6 bytes held in two words: its first bytes and its last ones, which overlap. */
struct held {
    uint32_t head, tail;
};

static inline uint32_t load(const uint8_t *p)
{
    uint32_t word;
    memcpy(&word, p, sizeof word);
    return word;
}

static inline uint16_t load_half(const uint8_t *p)
{
    uint16_t half;
    memcpy(&half, p, sizeof half);
    return half;
}

static inline struct held hold(const uint8_t *p, size_t size)
{
    if (size < 4) return (struct held){ load_half(p), p[2] };
    return (struct held){ load(p), load(p + size - 4) };
}

static inline void put(uint8_t *p, size_t size, struct held h)
{
    if (size < 4) {
        uint16_t half = (uint16_t)h.head;
        memcpy(p, &half, sizeof half);
        p[2] = (uint8_t)h.tail;
        return;
    }
    memcpy(p, &h.head, 4);
    memcpy(p + size - 4, &h.tail, 4);
}

/* Swaps records i and i + 1, or gives 12 or 13. */
static inline int swap(struct copy *c, size_t i)
{
    if (i + 1 >= c->count) return KNITOUT_NO_PAIR;
    uint8_t *x = c->bytes + c->starts[i], *y = c->bytes + c->starts[i + 1];
    if (tied(c, i, x, y)) return KNITOUT_TIED;
    size_t first = record_size[x[0]], second = record_size[y[0]];
    struct held a = hold(x, first), b = hold(y, second);
    put(x, second, b);
    put(x + second, first, a);
    c->starts[i + 1] = (uint16_t)(c->starts[i] + second);
    return KNITOUT_DONE;
}

/* Makes the swaps of a log up to the first that is refused. */
static uint64_t replay(struct copy *c, const uint8_t *log, size_t length)
{
    for (size_t at = 0; at < length; at += KNITOUT_LOG_RECORD) {
        if (length - at < KNITOUT_LOG_RECORD || log[at] != KNITOUT_SWAP) return packed(KNITOUT_TORN_LOG, at);
        int number = swap(c, (size_t)log[at + 1] << 8 | log[at + 2]);
        if (number) return packed(number, at);
    }
    return KNITOUT_DONE;
}

/* Writes the starts and keeps the racking at every 64th record. */
static void find_starts(struct copy *c, size_t length)
{
    size_t n = 0;
    int8_t racking = 0;
    for (size_t at = 0; at < length; n++) {
        const uint8_t *p = c->bytes + at;
        if (n % STRIDE == 0) c->marks[n / STRIDE] = racking;
        if (p[0] == RACK) racking = (int8_t)p[1];
        c->starts[n] = (uint16_t)at;
        at += record_size[p[0]];
    }
    c->count = n;
}

uint64_t plain_rewrite_at(uint8_t limit, const uint8_t *program, size_t length, const uint8_t *log, size_t log_length,
                          uint8_t *output, size_t output_length, uint16_t *work, size_t work_count)
{
    if (limit_is_out(limit)) return packed(KNITOUT_BAD_STATE, 0);
    if (length > KNITOUT_PROGRAM_MOST || log_length > KNITOUT_LOG_MOST) return packed(KNITOUT_TOO_LONG, 0);
    if (output_length < length || work_count < length / 2) return packed(KNITOUT_NO_ROOM, 0);
    uint64_t answer = plain_run_at(limit, program, length);
    if (answer) return answer;
    struct copy c; /* its marks are written as they are needed */
    c.bytes = output;
    c.starts = work;
    if (length > 0) memcpy(output, program, length);
    find_starts(&c, length);
    return replay(&c, log, log_length);
}

uint64_t plain_rewrite(const uint8_t *program, size_t length, const uint8_t *log, size_t log_length,
                       uint8_t *output, size_t output_length, uint16_t *work, size_t work_count)
{
    return plain_rewrite_at(KNITOUT_LIMIT_MOST, program, length, log, log_length, output, output_length, work, work_count);
}
