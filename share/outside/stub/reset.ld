/* The ROM: the stub's bytes first, the first instructions behind them, the reset vector last. */
OUTPUT_FORMAT("elf32-i386")
descriptors_offset = descriptors_pointer & 0xffff;
start_offset = (start - 0xfffffff3) & 0xffff;
SECTIONS
{
  . = 0xffff0000;
  .text : {
    *(.stub)
    *(.reset)
    . = 0xfff0;
    *(.vector)
    . = 0x10000;
  } =0
  /DISCARD/ : { *(*) }
}
