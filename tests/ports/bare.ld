/* A Cortex-M board of the emulator: code at 0, RAM at 0x20000000. */
MEMORY { flash (rx) : ORIGIN = 0, LENGTH = 256K   ram (rwx) : ORIGIN = 0x20000000, LENGTH = 512K }
ENTRY(vectors)
SECTIONS {
    .text : { KEEP(*(.vectors)) *(.text*) *(.rodata*) } > flash
    .ARM.exidx : { *(.ARM.exidx*) } > flash
    .data : { *(.data*) } > ram
    .bss (NOLOAD) : { *(.bss*) } > ram
    stack_top = ORIGIN(ram) + LENGTH(ram);
}
