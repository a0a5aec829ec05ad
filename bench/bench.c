/* Lists, counts and times the measured work through the library and plain C, and checks that both do the same. */
#define _POSIX_C_SOURCE 200809L

#include "machine.h"

#include <stdio.h>
#include <stdlib.h>
#include <string.h>

/* Short work is called often enough for the clock. */
enum { TIMED_RECORDS = 20000 };

/* One thing done with an input that has been built. */
typedef int (*treatment)(const struct group *g, int i, const struct about *about);

static const char *const version_names[VERSIONS] = { "nothing", "library", "plain" };
static unsigned long repetitions;

const struct group *const groups[GROUPS] = { &run_group, &rewrite_group, &order_group, &tie_group, &step_group,
                                             &carriers_group };

static int usage(void)
{
    fputs("usage: bench [NAME=VALUE..] COMMAND, with values put into the environment, which a board has not by itself\n"
          "       bench check\n"
          "       bench list\n"
          "       bench count (under callgrind: one dump each, named by entry, input and version)\n"
          "       bench call ENTRY INPUT (the library and the entry that does nothing, once: for a trace)\n"
          "       bench time REPETITIONS\n"
          "       bench stack\n", stderr);
    return 2;
}

/* Says what an input is, after both versions have done it. */
static int list(const struct group *g, int i, const struct about *about)
{
    for (int v = LIBRARY; v <= PLAIN; v++) {
        g->prepare(v);
        g->call(v);
    }
    printf("%s %d %s\n", g->entry, i, about->text);
    return g->differs();
}

/* Counts one call of each version. */
static int count(const struct group *g, int i, const struct about *about)
{
    char name[64];
    (void)about;
    for (int v = NOTHING; v < VERSIONS; v++) {
        g->prepare(v);
        snprintf(name, sizeof name, "%s %d %s", g->entry, i, version_names[v]);
        count_call(g->call, v, name);
    }
    return g->differs();
}

/* One call of the library and of the entry that does nothing. */
static int call(const struct group *g, int i, const struct about *about)
{
    (void)i, (void)about;
    for (int v = NOTHING; v <= LIBRARY; v++) {
        g->prepare(v);
        g->call(v);
    }
    return 0;
}

/* The time of some calls, with what comes before each. */
static double time_of(const struct group *g, enum version v, unsigned calls)
{
    double start = nanoseconds();
    for (unsigned i = 0; i < calls; i++) {
        g->prepare(v);
        g->call(v);
    }
    return nanoseconds() - start;
}

static double best_time(const struct group *g, enum version v, unsigned calls)
{
    double best = time_of(g, v, calls);
    for (unsigned long i = 1; i < repetitions; i++) {
        double spent = time_of(g, v, calls);
        if (spent < best) best = spent;
    }
    return best / calls;
}

/* Prints the best time a call of each version. */
static int take_time(const struct group *g, int i, const struct about *about)
{
    if (!about->timed) return 0;
    unsigned calls = 1 + TIMED_RECORDS / about->records;
    for (int v = NOTHING; v < VERSIONS; v++)
        printf("%s %d %s %.1f\n", g->entry, i, version_names[v], best_time(g, v, calls));
    return g->differs();
}

static int treat(const struct group *g, int i, treatment chosen)
{
    struct about about;
    g->build(i, &about);
    return chosen(g, i, &about);
}

static int treat_all(treatment chosen)
{
    for (int n = 0; n < GROUPS; n++)
        for (int i = 0; i < groups[n]->inputs(); i++)
            if (treat(groups[n], i, chosen)) return 1;
    return 0;
}

/* One input of one entry. */
static int treat_one(const char *entry, int i, treatment chosen)
{
    for (int n = 0; n < GROUPS; n++)
        if (strcmp(groups[n]->entry, entry) == 0 && 0 <= i && i < groups[n]->inputs()) return treat(groups[n], i, chosen);
    return usage();
}

/* The inputs that are not measured. */
static int check_all(void)
{
    for (int i = 0; i < GROUPS; i++)
        if (groups[i]->checks()) return 1;
    return 0;
}

/* Puts NAME=VALUE before the command into the environment; how many there are. */
static int take_values(char **words)
{
    int n = 0;
    for (char *value; words[n] && (value = strchr(words[n], '=')); n++) {
        *value = 0;
        if (setenv(words[n], value + 1, 1) != 0) exit(1);
    }
    return n;
}

static int obey(int words_given, char **words)
{
    if (words_given == 0) return usage();
    const char *command = words[0];
    if (words_given == 2 && strcmp(command, "time") == 0) {
        repetitions = strtoul(words[1], NULL, 10);
        return treat_all(take_time);
    }
    if (words_given == 3 && strcmp(command, "call") == 0) return treat_one(words[1], atoi(words[2]), call);
    if (words_given != 1) return usage();
    if (strcmp(command, "check") == 0) return check_all();
    if (strcmp(command, "list") == 0) return treat_all(list);
    if (strcmp(command, "count") == 0) return counts_fail() || treat_all(count);
    if (strcmp(command, "stack") == 0) return print_stacks();
    return usage();
}

int main(int argc, char **argv)
{
    if (argc == 0) return usage();
    int values = take_values(argv + 1);
    return obey(argc - 1 - values, argv + 1 + values);
}
