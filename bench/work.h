/* Work that is measured, through the library and through plain C. */
#ifndef BENCH_WORK_H
#define BENCH_WORK_H

#include "kinds.h"

/* What a call through an entry that does nothing costs is taken off the other two. */
enum version { NOTHING, LIBRARY, PLAIN, VERSIONS };

/* What is said of an input. */
struct about {
    char text[200];    /* for the script; formats are those that the board's C library has, too: no %zu */
    unsigned records;  /* that a call goes through, roughly */
    int timed;         /* is its wall time taken? */
};

/* One entry with its inputs. */
struct group {
    const char *entry;
    int (*inputs)(void);
    void (*build)(int i, struct about *about); /* the input of the next calls */
    void (*prepare)(enum version v);           /* what is lent, as it was before the call */
    void (*call)(enum version v);
    int (*differs)(void); /* after a call of each version: 1 if one did not what it should, with a message */
    int (*checks)(void);  /* the same on further inputs; the one built is lost */
};

enum { GROUPS = 6 };

extern const struct group run_group, rewrite_group, order_group, tie_group, step_group, carriers_group;

/* The six above. */
extern const struct group *const groups[GROUPS];

/* Prints the stack of each entry: the most over all its inputs. */
int print_stacks(void);

#endif
