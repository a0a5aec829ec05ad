/* memcpy's family byte by byte: for firmware that traps unaligned accesses, which newlib's makes. */
#include <stddef.h>
#include <stdint.h>

void *memcpy(void *restrict to, const void *restrict from, size_t n);
void *memmove(void *to, const void *from, size_t n);
void *memset(void *to, int byte, size_t n);
void __aeabi_memcpy(void *to, const void *from, size_t n);
void __aeabi_memmove(void *to, const void *from, size_t n);
void __aeabi_memset(void *to, size_t n, int byte);
void __aeabi_memclr(void *to, size_t n);

void *memmove(void *to, const void *from, size_t n)
{
    uint8_t *at = to;
    const uint8_t *source = from;
    if ((uintptr_t)at <= (uintptr_t)source)
        for (size_t i = 0; i < n; i++) at[i] = source[i];
    else
        while (n--) at[n] = source[n];
    return to;
}

void *memcpy(void *restrict to, const void *restrict from, size_t n) { return memmove(to, from, n); }

void *memset(void *to, int byte, size_t n)
{
    for (uint8_t *at = to, *end = at + n; at != end; at++) *at = (uint8_t)byte;
    return to;
}

void __aeabi_memcpy(void *to, const void *from, size_t n) { memmove(to, from, n); }
void __aeabi_memmove(void *to, const void *from, size_t n) { memmove(to, from, n); }
void __aeabi_memset(void *to, size_t n, int byte) { memset(to, byte, n); }
void __aeabi_memclr(void *to, size_t n) { memset(to, 0, n); }

/* The same for aligned areas. */
#define ALIAS(name) __attribute__((alias(#name)))
void __aeabi_memcpy4(void *to, const void *from, size_t n) ALIAS(__aeabi_memcpy);
void __aeabi_memcpy8(void *to, const void *from, size_t n) ALIAS(__aeabi_memcpy);
void __aeabi_memmove4(void *to, const void *from, size_t n) ALIAS(__aeabi_memmove);
void __aeabi_memmove8(void *to, const void *from, size_t n) ALIAS(__aeabi_memmove);
void __aeabi_memset4(void *to, size_t n, int byte) ALIAS(__aeabi_memset);
void __aeabi_memset8(void *to, size_t n, int byte) ALIAS(__aeabi_memset);
void __aeabi_memclr4(void *to, size_t n) ALIAS(__aeabi_memclr);
void __aeabi_memclr8(void *to, size_t n) ALIAS(__aeabi_memclr);
