/* The house order in plain C, written for speed and going the same way: one run, one pass for starts, each record put to
   its place by its start alone, one pass that writes. */
#include "plain.h"

#include "kinds.h"

#include <string.h>

/* The record that is put to its place, which is no rack. */
struct moved {
    const uint8_t *bytes;
    size_t size;
    int column;
    int low, high;         /* numbers of needles that may lie in neighbouring columns, whatever their beds */
    uint8_t first, second; /* its carriers; 0, which no record names, where there is none */
};

static inline struct moved moved_at(const uint8_t *p, int racking)
{
    int number = p[2 + has_carrier(p)], reach = 1 + (racking < 0 ? -racking : racking);
    return (struct moved){ p, record_size[p[0]], column_at(p, racking), number - reach, number + reach,
                           has_carrier(p) ? p[4] : 0, is_plated(p) ? p[5] : 0 };
}

/* Is the record y tied to x? Most are not, by their carriers and columns alone. */
static inline int tied_to(const struct moved *x, const uint8_t *y, int racking)
{
    if (has_carrier(y)) {
        if (y[4] == x->first || y[4] == x->second) return 1;
        if (is_plated(y) && (y[5] == x->first || y[5] == x->second)) return 1;
        if (y[3] < x->low || x->high < y[3]) return 0;
    } else if (y[0] == RACK) {
        return 1;
    }
    int apart = column_at(y, racking) - x->column;
    if (apart < -1 || 1 < apart) return 0;
    return extents_meet(x->bytes, y, racking);
}

/* Do the bytes of x come before those of y? A kind has one size, so none is a shorter prefix of another. */
static inline int goes_before(const struct moved *x, const uint8_t *y)
{
    for (size_t i = 0; i < x->size; i++)
        if (x->bytes[i] != y[i]) return x->bytes[i] < y[i];
    return 0;
}

/* Puts record j behind the last one that it is tied to, before the first there that it goes before. */
static void settle(const uint8_t *program, uint16_t *starts, size_t j, int racking)
{
    uint16_t start = starts[j];
    struct moved x = moved_at(program + start, racking);
    size_t i = j, k;
    while (i > 0 && !tied_to(&x, program + starts[i - 1], racking)) i--;
    for (k = i; k < j; k++)
        if (goes_before(&x, program + starts[k])) break;
    if (k == j) return;
    memmove(starts + k + 1, starts + k, (j - k) * sizeof *starts);
    starts[k] = start;
}

static size_t find_starts(const uint8_t *program, size_t length, uint16_t *starts)
{
    size_t n = 0;
    for (size_t at = 0; at < length; at += record_size[program[at]]) starts[n++] = (uint16_t)at;
    return n;
}

static void arrange(const uint8_t *program, uint16_t *starts, size_t count)
{
    int racking = 0;
    for (size_t j = 0; j < count; j++) {
        const uint8_t *p = program + starts[j];
        if (p[0] == RACK) racking = (int8_t)p[1];
        else settle(program, starts, j, racking);
    }
}

/* Writes the records end to end, and their starts there in place of those in the program. */
static void lay(const uint8_t *program, uint8_t *output, uint16_t *starts, size_t count)
{
    size_t at = 0;
    for (size_t i = 0; i < count; i++) {
        const uint8_t *p = program + starts[i];
        size_t size = record_size[p[0]];
        starts[i] = (uint16_t)at;
        switch (size) {
        case 2: memcpy(output + at, p, 2); break;
        case 3: memcpy(output + at, p, 3); break;
        case 4: memcpy(output + at, p, 4); break;
        case 5: memcpy(output + at, p, 5); break;
        default: memcpy(output + at, p, 6); break;
        }
        at += size;
    }
}

uint64_t plain_order_at(uint8_t limit, const uint8_t *program, size_t length, uint8_t *output, size_t output_length,
                        uint16_t *work, size_t work_count)
{
    if (limit_is_out(limit)) return packed(KNITOUT_BAD_STATE, 0);
    if (length > KNITOUT_PROGRAM_MOST) return packed(KNITOUT_TOO_LONG, 0);
    if (output_length < length || work_count < length / 2) return packed(KNITOUT_NO_ROOM, 0);
    uint64_t answer = plain_run_at(limit, program, length);
    if (answer) return answer;
    size_t count = find_starts(program, length, work);
    arrange(program, work, count);
    lay(program, output, work, count);
    return answer;
}

uint64_t plain_order(const uint8_t *program, size_t length, uint8_t *output, size_t output_length, uint16_t *work,
                     size_t work_count)
{
    return plain_order_at(KNITOUT_LIMIT_MOST, program, length, output, output_length, work, work_count);
}
