/* A raw image: its first byte lies at 0x80200000, where hart 0 starts. What follows the image is zero in a fresh guest. */
OUTPUT_ARCH(riscv)
ENTRY(_start)

SECTIONS
{
  . = 0x80200000;
  .text : { *(.text.first) *(.text.start) *(.text.attempts) *(.text .text.*) }
  .rodata : { *(.rodata .rodata.* .srodata .srodata.*) }
  .data : { *(.data .data.* .sdata .sdata.*) }
  . = ALIGN(8);
  bss_start = .;
  .bss (NOLOAD) : { *(.sbss .sbss.* .bss .bss.* COMMON) }
  . = ALIGN(8);
  bss_end = .;
  .noinit (NOLOAD) : { *(.noinit) }
  /DISCARD/ : { *(.comment) *(.note*) *(.riscv.attributes) *(.eh_frame*) }
}
