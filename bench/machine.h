/* What the benchmark asks of the machine that it runs on: machine_x86.c (under Linux) or machine_board.c (in QEMU). */
#ifndef BENCH_MACHINE_H
#define BENCH_MACHINE_H

#include "work.h"

#include <stddef.h>

/* The bytes of stack that a call takes for its return address, before the function called does anything. */
extern const size_t return_address_size;

/* Before the first count: 1, with a message, if counts would not be right. */
int counts_fail(void);

/* Counts the instructions of one call and gives them out under a name. */
void count_call(void (*call)(enum version v), enum version v, const char *name);

/* The wall clock; ends the program, with a message, where there is none. */
double nanoseconds(void);

/* Calls on another stack, which is aligned to 16 bytes. */
void call_on(unsigned char *stack, size_t size, void (*call)(void));

#endif
