/* The controller's board in QEMU (mps2-an386): instructions by its timers, which QEMU's -icount drives. There is no wall
   clock. */
#include "machine.h"

#include <inttypes.h>
#include <stdio.h>
#include <stdlib.h>

/* With -icount shift=7 an instruction takes 128 ns, and the timers tick every 40 ns: 16 ticks for 5 instructions. A
   difference of two readings is less than a tick off, which is less than a third of an instruction. */
enum { TICKS = 16, INSTRUCTIONS = 5 };

/* A timer that counts down, and one that does so at every 256th tick: the first comes round after 1,342 million
   instructions, and the second tells how often. */
struct timer { volatile uint32_t control, value, reload, interrupt; };
struct slow_timer { volatile uint32_t load, value, control; };
enum { ENABLE = 1, SLOW_ENABLE = 0x80, EVERY_256TH = 2 << 2, WIDE = 2, EVERY = 256 };
#define TIMER ((struct timer *)0x40000000)
#define SLOW_TIMER ((struct slow_timer *)0x40002000)

/* Repetitions of the loops that counts are tried on: few, many, and so many that the first timer comes round twice. */
enum { FEW = 100, MANY = 1000003, ROUND = 3000001 };

const size_t return_address_size = 0; /* it comes in a register */

static void (*counted_call)(enum version v);

static void start_timers(void)
{
    TIMER->reload = TIMER->value = UINT32_MAX;
    TIMER->control = ENABLE;
    SLOW_TIMER->load = UINT32_MAX;
    SLOW_TIMER->control = SLOW_ENABLE | EVERY_256TH | WIDE;
}

/* The instructions of a call, and what is done about it here, which is the same for every call: there is one copy of it. */
__attribute__((noinline, noclone)) static uint64_t counted(void (*call)(uintptr_t word), uintptr_t word)
{
    uint32_t slow = SLOW_TIMER->value, ticks = TIMER->value;
    call(word);
    ticks -= TIMER->value;
    slow -= SLOW_TIMER->value;
    uint64_t about = (uint64_t)slow * EVERY, exact = about + (uint64_t)(int32_t)(ticks - (uint32_t)about);
    return (exact * INSTRUCTIONS + TICKS / 2) / TICKS;
}

/* One instruction; 1 + 2 n of them; 1 + 1000 n of them. */
__attribute__((naked)) static void do_nothing(__attribute__((unused)) uintptr_t n) { __asm__("bx lr"); }

__attribute__((naked)) static void loop(__attribute__((unused)) uintptr_t n)
{
    __asm__("1: subs r0, #1\n\tbne 1b\n\tbx lr");
}

__attribute__((naked)) static void long_loop(__attribute__((unused)) uintptr_t n)
{
    __asm__("1: .rept 998\n\tnop\n\t.endr\n\tsubs r0, #1\n\tbne.w 1b\n\tbx lr");
}

/* A loop of so many repetitions, with so many instructions each, counted twice. */
static int loop_fails(void (*tried)(uintptr_t n), uintptr_t n, unsigned each)
{
    for (int i = 0; i < 2; i++) {
        uint64_t expected = (uint64_t)each * n, count = counted(tried, n) - counted(do_nothing, n);
        if (count == expected) continue;
        fprintf(stderr, "bench: %" PRIu64 " instructions were counted as %" PRIu64 ": is QEMU run with -icount shift=7?\n",
                expected, count);
        return 1;
    }
    return 0;
}

int counts_fail(void)
{
    start_timers();
    for (uintptr_t n = 1; n <= FEW; n++)
        if (loop_fails(loop, n, 2)) return 1;
    return loop_fails(loop, MANY, 2) || loop_fails(long_loop, ROUND, 1000);
}

static void make_call(uintptr_t v) { counted_call((enum version)v); }

void count_call(void (*call)(enum version v), enum version v, const char *name)
{
    counted_call = call;
    printf("%s %" PRIu64 "\n", name, counted(make_call, v));
}

double nanoseconds(void)
{
    fputs("bench: the board has no wall clock\n", stderr);
    exit(1);
}

void call_on(unsigned char *stack, size_t size, void (*call)(void))
{
    __asm__ volatile("mov r4, sp\n\tmov sp, %0\n\tblx %1\n\tmov sp, r4"
                     :
                     : "r"(stack + size), "r"(call)
                     : "r0", "r1", "r2", "r3", "r4", "r12", "lr", "d0", "d1", "d2", "d3", "d4", "d5", "d6", "d7", "cc", "memory");
}
