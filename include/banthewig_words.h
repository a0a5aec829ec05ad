/* A word for each number of an answer, as documents 01 and 02 have them: for messages. Needs no other header, and no archive. */
#ifndef BANTHEWIG_WORDS_H
#define BANTHEWIG_WORDS_H

/* The word for a number of enum knitout_number, "?" for any other. */
static inline const char *knitout_word(unsigned number)
{
    static const char *const words[] = {
        "done",           /* KNITOUT_DONE */
        "too long",       /* KNITOUT_TOO_LONG */
        "no bench",       /* KNITOUT_NO_ROOM */
        "strange",        /* KNITOUT_UNKNOWN_KIND */
        "cut short",      /* KNITOUT_CUT_SHORT */
        "field",          /* KNITOUT_FIELD_RANGE */
        "already in",     /* KNITOUT_ALREADY_IN */
        "not in",         /* KNITOUT_NOT_IN */
        "elsewhere",      /* KNITOUT_WRONG_SLOT */
        "float",          /* KNITOUT_FLOAT_TOO_LONG */
        "not opposite",   /* KNITOUT_NOT_OPPOSITE */
        "hook full",      /* KNITOUT_HOOK_FULL */
        "no pair",        /* KNITOUT_NO_PAIR */
        "tied",           /* KNITOUT_TIED */
        "torn log",       /* KNITOUT_TORN_LOG */
        "foul state",     /* KNITOUT_BAD_STATE */
        "one yarn twice", /* KNITOUT_YARN_TWICE */
        "stretched"       /* KNITOUT_STRETCHED */
    };
    return number < sizeof words / sizeof *words ? words[number] : "?";
}

#endif
