/* The first program of README.md: rewrites a program by a log, steps the output and lists the carriers. */
#include <stdio.h>
#include "banthewig.h"
#include "banthewig_words.h"

/* carriers 3 and 4 come in and knit on opposite needles, f.10 and b.10 */
static const uint8_t program[] = {
    KNITOUT_IN,   KNITOUT_TO_RIGHT, KNITOUT_FRONT, 10, 3,
    KNITOUT_IN,   KNITOUT_TO_RIGHT, KNITOUT_BACK,  10, 4,
    KNITOUT_KNIT, KNITOUT_TO_RIGHT, KNITOUT_FRONT, 10, 3,
    KNITOUT_KNIT, KNITOUT_TO_RIGHT, KNITOUT_BACK,  10, 4,
};
static const uint8_t swaps[] = {KNITOUT_SWAP, 0, 2}; /* the two knits, records 2 and 3 */

static uint8_t output[KNITOUT_PROGRAM_MOST]; /* enough for every program, as is work */
static uint16_t work[KNITOUT_WORK_MOST];
static struct knitout_state panel = KNITOUT_EMPTY(KNITOUT_LIMIT_MOST); /* empty; a hook holds 8 loops */
static struct knitout_carrier list[KNITOUT_CARRIERS];

int main(void)
{
    uint64_t answer = knitout_rewrite(program, sizeof program, swaps, sizeof swaps, output, sizeof output,
                                      work, KNITOUT_WORK_MOST);
    if (KNITOUT_NUMBER(answer) != KNITOUT_DONE) {
        printf("refused: %s at %u\n", knitout_word(KNITOUT_NUMBER(answer)), KNITOUT_PLACE(answer));
        return 1;
    }
    for (size_t place = 0; place < sizeof program;) { /* the output is as long as the program */
        struct knitout_stepped step = knitout_step(&panel, output + place, sizeof program - place);
        if (step.number != KNITOUT_DONE)
            return 1; /* not after a rewrite that is done, unless something else wrote to panel or output */
        printf("knit the %u bytes at %u\n", (unsigned)step.length, (unsigned)place);
        place += (size_t)step.length;
    }
    if (knitout_carriers(&panel, list, KNITOUT_CARRIERS).number == KNITOUT_DONE)
        for (int k = 1; k <= KNITOUT_CARRIERS; k++)
            if (list[k - 1].active)
                printf("carrier %d at slot %d\n", k, list[k - 1].slot);
    return 0;
}
