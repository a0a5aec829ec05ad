/* Runs the knitout program of a file at limit 8 and prints the answer: knitrun FILE. A file that can't be read counts as an
   empty program, as in document 01's listing. */
#include "banthewig.h"
#include "banthewig_words.h"

#include <stdio.h>

int main(int count, char **names)
{
    /* room for the longest file and one byte more, by which a longer one is known */
    static uint8_t program[KNITOUT_PROGRAM_MOST + 1];
    size_t length = 0;

    if (count != 2) {
        fputs("usage: knitrun FILE\n", stderr);
        return 2;
    }
    FILE *file = fopen(names[1], "rb");
    if (file) {
        length = fread(program, 1, sizeof program, file);
        fclose(file);
    }
    uint64_t answer = knitout_run(program, length);
    unsigned number = KNITOUT_NUMBER(answer);

    printf("%s: %u %u %s\n", names[1], number, KNITOUT_PLACE(answer), knitout_word(number));
    return 0;
}
