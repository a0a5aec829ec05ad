/* The programs on which the house order is measured. */
#ifndef BENCH_ORDERS_H
#define BENCH_ORDERS_H

#include "kinds.h"

/* Each program is built at five lengths, each the double of the one before. */
enum { ORDER_LENGTHS = 5 };

/* A program built; `bench/orders.c` says what each one holds. */
struct order_input {
    const char *name;
    _Alignas(LINE) uint8_t program[KNITOUT_PROGRAM_MOST];
    size_t length;
    unsigned records;
    int longest; /* is this the longest of the five? */
};

/* How many inputs there are: the programs, each at its lengths in turn. */
int count_orders(void);

/* Builds an input, the same one on every call. */
const struct order_input *build_order(int i);

#endif
