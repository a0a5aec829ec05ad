/* Fences by the memory protection unit of ARMv7-M: two of its eight regions for each area. */
#include "board.h"
#include "fence.h"

#include <stdio.h>
#include <stdlib.h>

/* Its registers, and that which says why a memory fault came (1 written to a bit clears it). */
static volatile uint32_t *const mpu_control = (uint32_t *)0xe000ed94, *const mpu_address = (uint32_t *)0xe000ed9c,
                                *const mpu_region = (uint32_t *)0xe000eda0, *const fault_status = (uint32_t *)0xe000ed28;
/* All else as without the unit; a region of 2^10 bytes that nobody may read, write or execute. */
enum { MPU_OFF = 0, MPU_ON = 5, NO_ACCESS = 1 << 28 | (10 - 1) << 1 | 1, ADDRESS_WITH_REGION = 1 << 4, REGIONS = 8 };
_Static_assert(FENCE == 1 << 10 && REGIONS == 2 * AREAS_FENCED_MOST, "a region is a fence");

static int used, trying;
static volatile unsigned faulted;
static uintptr_t wanted[REGIONS], set[REGIONS]; /* the fences' addresses */
static unsigned count;

int use_fences(void) { return used = 1; }

void fence(const void *at, size_t length)
{
    if (!used) return;
    if (count + 2 > REGIONS) {
        fputs("fence_mpu: more areas than regions\n", stderr);
        exit(1);
    }
    uintptr_t start = (uintptr_t)at, end = start + length;
    wanted[count++] = start / FENCE * FENCE - FENCE;
    wanted[count++] = (end + FENCE - 1) / FENCE * FENCE;
}

static void control(uint32_t to)
{
    __asm__ volatile("dsb" ::: "memory");
    *mpu_control = to;
    __asm__ volatile("dsb\n\tisb" ::: "memory");
}

/* What is set already is left, since a write costs QEMU much; a region without a fence of its own has the first one's. */
void fences_up(void)
{
    if (!used) return;
    for (unsigned i = 0; i < REGIONS; i++) {
        uintptr_t address = wanted[i < count ? i : 0];
        if (set[i] == address) continue;
        *mpu_address = (uint32_t)(address | ADDRESS_WITH_REGION | i);
        if (!set[i]) *mpu_region = NO_ACCESS;
        set[i] = address;
    }
    control(MPU_ON);
}

void fences_down(void)
{
    if (used) control(MPU_OFF);
    count = 0;
}

/* A fault while a fence is tried skips the load that met it; any other ends the program. */
__attribute__((used)) static void at_fault(uint32_t *frame)
{
    if (!trying) {
        control(MPU_OFF);
        printf("fence: touched at %08lx, from %08lx\n", (unsigned long)*(volatile uint32_t *)0xe000ed34, (unsigned long)frame[6]);
        fflush(stdout);
        _exit(FAULTED);
    }
    faulted = 1;
    *fault_status = *fault_status;
    frame[6] += *(const uint16_t *)frame[6] >> 11 >= 0x1d ? 4 : 2; /* the size of the instruction there */
}

__attribute__((naked)) void board_memory_fault(void) { __asm__("mov r0, sp\n\tpush {r4, lr}\n\tbl at_fault\n\tpop {r4, pc}"); }

unsigned is_fenced(const uint8_t *at)
{
    uint8_t byte;
    faulted = 0, trying = 1;
    __asm__ volatile("ldrb %0, [%1]" : "=r"(byte) : "r"(at) : "memory");
    trying = 0;
    return faulted;
}
