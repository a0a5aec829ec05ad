/* A machine without fences. */
#include "fence.h"

int use_fences(void) { return 0; }
void fence(const void *at, size_t length) { (void)at, (void)length; }
void fences_up(void) { }
void fences_down(void) { }
unsigned is_fenced(const uint8_t *at) { return (void)at, 0; }
