/* Start-up code of the board for programs that QEMU runs: vectors, data and bss, faults, and newlib's system calls by
   semihosting, that is, by asking QEMU. */
#include "board.h"

#include <errno.h>
#include <stddef.h>
#include <stdint.h>
#include <stdlib.h>
#include <string.h>
#include <sys/stat.h>

/* What the linker script sets. */
extern char board_data_kept[], board_data[], board_data_end[], board_bss[], board_bss_end[], board_stack_top[], board_heap[],
    board_heap_end[];

int main(int count, char **words);

/* ---- Semihosting: ARM's numbers of calls, and handles of files */
enum { SYS_OPEN = 1, SYS_CLOSE = 2, SYS_WRITE0 = 4, SYS_WRITE = 5, SYS_READ = 6, SYS_FLEN = 12, SYS_GET_CMDLINE = 0x15,
       SYS_EXIT_EXTENDED = 0x20 };
enum { OPEN_READ_BINARY = 1, OPEN_WRITE = 4, OPEN_APPEND = 8 };
enum { APPLICATION_EXIT = 0x20026 };
/* newlib's numbers of opened files begin here, the lower ones are input, output and errors; QEMU's handles stay below 16. */
enum { FIRST_FILE = 16, HANDLES = 16 };

static intptr_t ask(intptr_t number, const void *block)
{
    register intptr_t r0 __asm__("r0") = number;
    register const void *r1 __asm__("r1") = block;
    __asm__ volatile("bkpt 0xab" : "+r"(r0) : "r"(r1) : "memory");
    return r0;
}

void _exit(int status)
{
    const uintptr_t block[2] = {APPLICATION_EXIT, (uintptr_t)status};
    ask(SYS_EXIT_EXTENDED, block);
    for (;;) {
    }
}

/* ---- Faults: a line to QEMU's standard error, and status 99 */
static void stop(const char *text)
{
    ask(SYS_WRITE0, text);
    _exit(FAULTED);
}

static void hard_fault(void) { stop("board: hard fault\n"); }
static void bus_fault(void) { stop("board: bus fault\n"); }
static void usage_fault(void) { stop("board: usage fault\n"); }
static void unexpected(void) { stop("board: unexpected exception\n"); }

/* A program that has fences puts its own in place of this. */
__attribute__((weak)) void board_memory_fault(void) { stop("board: memory fault\n"); }

/* ---- From reset to main */

/* The words that QEMU was given by -semihosting-config arg=.. */
static int words_given(char ***words)
{
    static char line[512], *word[16];
    const uintptr_t block[2] = {(uintptr_t)line, sizeof line};
    int n = 0;
    if (ask(SYS_GET_CMDLINE, block) == 0)
        for (char *at = strtok(line, " "); at && n < 15; at = strtok(NULL, " ")) word[n++] = at;
    *words = word;
    return n;
}

/* Without the C library, which may load unaligned words. */
static void copy(char *to, const char *to_end, const char *from)
{
    while (to != to_end) *(volatile char *)to++ = *from++;
}

void board_reset(void)
{
    volatile uint32_t *const cpacr = (uint32_t *)0xe000ed88, *const ccr = (uint32_t *)0xe000ed14,
                      *const shcsr = (uint32_t *)0xe000ed24;
    *cpacr |= 0xfu << 20; /* the floating point unit, for the C library's printf */
    *shcsr |= 7u << 16;   /* memory, bus and usage faults by handlers of their own */
#ifdef TRAP_UNALIGNED
    *ccr |= 1u << 3; /* an unaligned word or halfword is a usage fault */
#endif
    (void)ccr;
    __asm__ volatile("dsb\n\tisb");
    copy(board_data, board_data_end, board_data_kept);
    for (char *at = board_bss; at != board_bss_end; at++) *(volatile char *)at = 0;
    char **words = NULL;
    int count = words_given(&words);
    exit(main(count, words));
}

/* The first word is the stack's top. */
__attribute__((section(".vectors"), used)) static const union {
    char *stack;
    void (*handler)(void);
} vectors[16] = {{board_stack_top}, {.handler = board_reset}, {.handler = unexpected}, {.handler = hard_fault},
                 {.handler = board_memory_fault}, {.handler = bus_fault}, {.handler = usage_fault}, {NULL}, {NULL}, {NULL},
                 {NULL}, {.handler = unexpected}, {.handler = unexpected}, {NULL}, {.handler = unexpected},
                 {.handler = unexpected}};

/* ---- newlib's system calls */

/* QEMU's console, opened once: 1 for output, 2 for errors. */
static intptr_t console(int file)
{
    static intptr_t handles[2] = {-1, -1};
    static const char name[] = ":tt";
    intptr_t *handle = &handles[file == 2];
    if (*handle < 0) {
        const uintptr_t block[3] = {(uintptr_t)name, file == 2 ? OPEN_APPEND : OPEN_WRITE, sizeof name - 1};
        *handle = ask(SYS_OPEN, block);
    }
    return *handle;
}

int _write(int file, const char *at, int n)
{
    const uintptr_t block[3] = {(uintptr_t)console(file), (uintptr_t)at, (uintptr_t)n};
    return n - (int)ask(SYS_WRITE, block);
}

/* Files of which nothing was read yet. */
static char unread[HANDLES];

int _open(const char *name, int flags, int mode)
{
    (void)flags, (void)mode;
    const uintptr_t block[3] = {(uintptr_t)name, OPEN_READ_BINARY, strlen(name)};
    intptr_t handle = ask(SYS_OPEN, block);
    if (handle >= 0 && handle < HANDLES) {
        unread[handle] = 1;
        return (int)handle + FIRST_FILE;
    }
    errno = ENOENT;
    return -1;
}

/* What has a length and gives nothing, as a folder, can't be read. */
int _read(int file, char *at, int n)
{
    int handle = file - FIRST_FILE;
    const uintptr_t block[3] = {(uintptr_t)handle, (uintptr_t)at, (uintptr_t)n};
    if (file < FIRST_FILE) return 0;
    intptr_t left = ask(SYS_READ, block);
    if (left < 0 || left > n || (left == n && unread[handle] && ask(SYS_FLEN, block) > 0)) {
        errno = EIO;
        return -1;
    }
    if (left < n) unread[handle] = 0;
    return n - (int)left;
}

int _close(int file)
{
    const uintptr_t block[1] = {(uintptr_t)(file - FIRST_FILE)};
    return file < FIRST_FILE ? -1 : (int)ask(SYS_CLOSE, block);
}

void *_sbrk(ptrdiff_t n)
{
    static char *at = board_heap;
    if (n > board_heap_end - at) {
        errno = ENOMEM;
        return (void *)-1;
    }
    at += n;
    return at - n;
}

int _fstat(int file, struct stat *about)
{
    (void)file;
    about->st_mode = S_IFCHR;
    return 0;
}

int _isatty(int file) { return file < FIRST_FILE; }
int _lseek(int file, int at, int from) { return (void)file, (void)at, (void)from, 0; }
int _kill(int process, int signal) { return (void)process, (void)signal, -1; }
int _getpid(void) { return 1; }
