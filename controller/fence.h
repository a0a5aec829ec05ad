/* Fences at both ends of what is lent: bytes that no code may touch while they are up. fence_mpu.c has them for the board,
   fence_none.c stands in where there are none. */
#ifndef FENCE_H
#define FENCE_H

#include <stddef.h>
#include <stdint.h>

/* A fence has so many bytes and begins at a multiple of them: a lent area has one right at an end that is such a multiple, and
   less than that away from another. (A page of QEMU's: with smaller ones every access near them is slow.) */
enum { FENCE = 1024, AREAS_FENCED_MOST = 4 };

/* From here on there are fences. 0 if this machine has none. */
int use_fences(void);

/* Sets fences at the ends of an area, of which a call has AREAS_FENCED_MOST at most. They are up between these two. */
void fence(const void *at, size_t length);
void fences_up(void);
void fences_down(void);

/* Whether a byte can't be read with the fences up. */
unsigned is_fenced(const uint8_t *at);

#endif
