/* The x86-64 under Linux: instructions by callgrind, the system's clock and contexts. */
#define _XOPEN_SOURCE 700

#include "machine.h"

#include <stdio.h>
#include <stdlib.h>
#include <time.h>
#include <ucontext.h>
#include <valgrind/callgrind.h>

const size_t return_address_size = sizeof(void *);

int counts_fail(void)
{
    if (RUNNING_ON_VALGRIND) return 0;
    fputs("bench: instructions are counted under callgrind only\n", stderr);
    return 1;
}

/* On an aligned stack. */
static void collect_call(void (*call)(enum version v), enum version v)
{
    _Alignas(PAGE) volatile char top = 0;
    (void)top;
    CALLGRIND_TOGGLE_COLLECT;
    call(v);
    CALLGRIND_TOGGLE_COLLECT;
}

/* The figure is in callgrind's dump of that name. */
void count_call(void (*call)(enum version v), enum version v, const char *name)
{
    collect_call(call, v);
    CALLGRIND_DUMP_STATS_AT(name);
}

double nanoseconds(void)
{
    struct timespec t;
    clock_gettime(CLOCK_MONOTONIC, &t);
    return (double)t.tv_sec * 1e9 + (double)t.tv_nsec;
}

void call_on(unsigned char *stack, size_t size, void (*call)(void))
{
    static ucontext_t here, there;
    if (getcontext(&there) != 0) exit(1);
    there.uc_stack.ss_sp = stack;
    there.uc_stack.ss_size = size;
    there.uc_link = &here;
    makecontext(&there, call, 0);
    if (swapcontext(&here, &there) != 0) exit(1);
}
