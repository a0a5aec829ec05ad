/* The board: a controller with 1 MiB of flash and 256 KiB of RAM, at the addresses of QEMU's mps2-an386 and mps2-an500.
   --defsym=BOARD_RAM=.. gives a test program, never the library, more RAM than that. */
MEMORY
{
    flash (rx) : ORIGIN = 0x00000000, LENGTH = 1M
    ram (rwx) : ORIGIN = 0x20000000, LENGTH = DEFINED(BOARD_RAM) ? BOARD_RAM : 256K
}
ENTRY(board_reset)
board_stack_top = ORIGIN(ram) + LENGTH(ram);
board_stack_size = 12K;
SECTIONS
{
    .text : { KEEP(*(.vectors)) *(.text .text.* .rodata .rodata.*) . = ALIGN(4); } >flash
    .ARM.exidx : { *(.ARM.exidx*) } >flash
    .data : ALIGN(8) { board_data = .; *(.data .data.*) . = ALIGN(4); board_data_end = .; } >ram AT>flash
    board_data_kept = LOADADDR(.data);
    .bss (NOLOAD) : ALIGN(8) { board_bss = .; *(.bss .bss.* COMMON) . = ALIGN(8); board_bss_end = .; } >ram
    board_heap = .;
    board_heap_end = board_stack_top - board_stack_size;
    ASSERT(board_heap + 6K <= board_heap_end, "no room for heap and stack")
}
