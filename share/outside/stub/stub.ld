/* The stub, at the place that the command line gives (`stub_base`). What has no bytes of its own
   is cleared by the stub, as nothing loads it. */
OUTPUT_FORMAT("elf64-x86-64")
SECTIONS
{
  . = stub_base;
  .text : { *(.entry) *(.text .text.*) *(.rodata .rodata.*) *(.data .data.*) . = ALIGN(8); }
  .bss : { bss_start = .; *(.bss .bss.* COMMON) . = ALIGN(4096); bss_end = .; }
  /DISCARD/ : { *(.comment) *(.note*) *(.eh_frame*) }
}
