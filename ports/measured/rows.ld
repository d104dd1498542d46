/* As tests/ports/bare.ld, with what is measured in a section of its own: the calls and what they take from a library. */
MEMORY { flash (rx) : ORIGIN = 0, LENGTH = 256K   ram (rwx) : ORIGIN = 0x20000000, LENGTH = 512K }
ENTRY(vectors)
SECTIONS {
    .vectors : { KEEP(*(.vectors)) } > flash
    .measured : { *(.marks) *libuss_c.a:*(.text*) *peer.o(.text*) *libgcc.a:*(.text*) } > flash
    .text : { *(.text*) *(.rodata*) } > flash
    .ARM.exidx : { *(.ARM.exidx*) } > flash
    .ARM.extab : { *(.ARM.extab*) } > flash
    .data : { *(.data*) } > ram
    .bss (NOLOAD) : { *(.bss*) } > ram
    stack_top = ORIGIN(ram) + LENGTH(ram);
}
