/* The emulator's board mps2-an385: code and constants at 0, RAM at 0x20000000. */
MEMORY { flash (rx) : ORIGIN = 0, LENGTH = 64K   ram (rw) : ORIGIN = 0x20000000, LENGTH = 16K }
ENTRY(vectors)
SECTIONS {
    .text : { KEEP(*(.vectors)) *(.text*) *(.rodata*) } > flash
    .ARM.exidx : { *(.ARM.exidx*) } > flash
    .data : ALIGN(4) { data_start = .; *(.data*) . = ALIGN(4); data_end = .; } > ram AT > flash
    data_load = LOADADDR(.data);
    .bss (NOLOAD) : ALIGN(4) { *(.bss*) *(COMMON) . = ALIGN(4); bss_end = .; } > ram
    stack_top = ORIGIN(ram) + LENGTH(ram);
}
