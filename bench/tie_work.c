/* The tie as measured work: all pairs through the library and through plain C. */
#include "plain_tie.h"
#include "ties.h"
#include "work.h"

#include <stdio.h>
#include <string.h>

typedef struct knitout_tied (*tie_function)(int8_t racking, const uint8_t *first, size_t first_length,
                                            const uint8_t *second, size_t second_length);

/* What a version told, pair by pair. */
static struct knitout_tied told[VERSIONS][PAIRS_LIMIT];
static const struct tie_input *in;

static struct knitout_tied tie_nothing(int8_t racking, const uint8_t *first, size_t first_length, const uint8_t *second,
                                       size_t second_length)
{
    (void)racking, (void)first, (void)first_length, (void)second, (void)second_length;
    return (struct knitout_tied){ 0 };
}

static const tie_function versions[VERSIONS] = { tie_nothing, knitout_tie, plain_tie };

/* How many neighbours of a program are tied, or the number of one pair. */
static unsigned number_of(void)
{
    unsigned tied = 0;
    if (in->pairs == 1) return in->told.number;
    for (unsigned i = 0; i < in->pairs; i++) {
        const struct tie_pair *p = &in->pair[i];
        tied += plain_tie(p->racking, p->first, p->first_length, p->second, p->second_length).number == KNITOUT_TIED;
    }
    return tied;
}

/* Name, pairs, number or how many are tied, by. */
static void build(int i, struct about *about)
{
    in = build_tie(i);
    about->records = 2 * in->pairs;
    about->timed = 1;
    snprintf(about->text, sizeof about->text, "%s %u %u %u", in->name, in->pairs, number_of(), in->told.by);
}

static void prepare(enum version v) { memset(told[v], 0xa5, in->pairs * sizeof told[v][0]); }

static void call(enum version v)
{
    for (unsigned i = 0; i < in->pairs; i++) {
        const struct tie_pair *p = &in->pair[i];
        told[v][i] = versions[v](p->racking, p->first, p->first_length, p->second, p->second_length);
    }
}

/* All fields the same, and those expected of one pair. */
static int differs(void)
{
    int agree = in->pairs > 1 || ties_agree(&told[PLAIN][0], &in->told);
    for (unsigned i = 0; i < in->pairs; i++) agree = agree && ties_agree(&told[LIBRARY][i], &told[PLAIN][i]);
    if (!agree) fprintf(stderr, "bench: tie %s: the versions differ, or another answer is expected\n", in->name);
    return !agree;
}

const struct group tie_group = { "tie", count_ties, build, prepare, call, differs, generated_ties_differ };
