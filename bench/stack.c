/* Measures the stack of each entry on every measured input, on a stack painted beforehand. */
#include "machine.h"

#include <stdio.h>
#include <stdlib.h>
#include <string.h>

enum { STACK_SIZE = 1 << 18 };

static _Alignas(16) unsigned char stack[STACK_SIZE];
static const struct group *group;
static enum version version;

static void call(void) { group->call(version); }

/* The bytes of the painted stack that one call changed, counted from its far end. */
static size_t changed(unsigned char paint)
{
    memset(stack, paint, STACK_SIZE);
    group->prepare(version);
    call_on(stack, STACK_SIZE, call);
    size_t low = 0;
    while (low < STACK_SIZE && stack[low] == paint) low++;
    if (low == 0) {
        fputs("bench: the painted stack is too small\n", stderr);
        exit(1);
    }
    return STACK_SIZE - low;
}

/* Two paints, since a call may by chance write the paint itself. */
static size_t deepest(enum version v)
{
    version = v;
    size_t a = changed(0xa5), b = changed(0x5a);
    return a > b ? a : b;
}

/* Raises the most to this input's, less what a call that does nothing takes; a return address is the call's own.
   Arguments that are handed over on the stack are the caller's. */
static int take_input(size_t most[VERSIONS])
{
    size_t without = deepest(NOTHING) - return_address_size;
    for (int v = LIBRARY; v <= PLAIN; v++) {
        size_t taken = deepest(v) - without;
        if (taken > most[v]) most[v] = taken;
    }
    return group->differs();
}

static int print_stack(const struct group *g)
{
    size_t most[VERSIONS] = { 0 };
    group = g;
    for (int i = 0; i < g->inputs(); i++) {
        struct about about;
        g->build(i, &about);
        if (take_input(most)) return 1;
    }
    printf("%s %lu %lu\n", g->entry, (unsigned long)most[LIBRARY], (unsigned long)most[PLAIN]);
    return 0;
}

int print_stacks(void)
{
    for (int i = 0; i < GROUPS; i++)
        if (print_stack(groups[i])) return 1;
    return 0;
}
