/* The board's start-up code, as its programs see it. */
#ifndef BOARD_H
#define BOARD_H

/* The status of a program that ended in a fault. */
enum { FAULTED = 99 };

void board_reset(void);

/* Ends the program without closing anything. */
void _exit(int status) __attribute__((noreturn));

/* Called at a memory fault; a program may have one of its own. */
void board_memory_fault(void);

#endif
