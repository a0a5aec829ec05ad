/* Makes a log's swaps in a program at limit 8 and prints the answer and the program's bytes: knitswap PROGRAM LOG. A file
   that can't be read counts as empty, as in document 01's listing. */
#include "banthewig.h"

#include <stdio.h>

/* Room for the longest file and one byte more, by which a longer one is known. */
static uint8_t program[KNITOUT_PROGRAM_MOST + 1], log_bytes[KNITOUT_LOG_MOST + 1];
static uint8_t output[KNITOUT_PROGRAM_MOST];
static uint16_t work[KNITOUT_WORK_MOST];

static size_t load(const char *path, uint8_t *bytes, size_t most)
{
    FILE *file = fopen(path, "rb");
    size_t length = 0;

    if (file) {
        length = fread(bytes, 1, most, file);
        fclose(file);
    }
    return length;
}

int main(int count, char **names)
{
    if (count != 3) {
        fputs("usage: knitswap PROGRAM LOG\n", stderr);
        return 2;
    }
    size_t length = load(names[1], program, sizeof program);
    size_t log_length = load(names[2], log_bytes, sizeof log_bytes);
    uint64_t answer = knitout_rewrite(program, length, log_bytes, log_length, output, sizeof output,
                                      work, KNITOUT_WORK_MOST);
    unsigned number = KNITOUT_NUMBER(answer);

    printf("%s: %u %u", names[2], number, KNITOUT_PLACE(answer));
    if (KNITOUT_WRITTEN(number))
        for (size_t i = 0; i < length; i++)
            printf("%s%02x", i == 0 ? " " : "", output[i]);
    putchar('\n');
    return 0;
}
