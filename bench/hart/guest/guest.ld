/* One raw image, which begins with the start file. */
ENTRY(start)
SECTIONS
{
    . = 0x80200000;
    .text : { *(.text.start) *(.text .text.*) }
    .rodata : { *(.rodata .rodata.* .srodata .srodata.*) }
    . = ALIGN(8);
    .data : { *(.data .data.* .sdata .sdata.*) }
    . = ALIGN(8);
    zeros_begin = .;
    .bss (NOLOAD) : { *(.bss .bss.* .sbss .sbss.* COMMON) }
    . = ALIGN(8);
    zeros_end = .;
    /DISCARD/ : { *(.note*) *(.comment) *(.riscv*) *(.eh_frame*) }
}
