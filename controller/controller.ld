/* The emulated board (mps2-an385). The card has 8 KB of RAM: its stack and, above it, the engine area. Nothing lies below the stack, so a
   call that wants more than card_stack_bytes ends in a fault. The line card's own memory, with messages and output, is elsewhere. */
ENTRY(start)

MEMORY
{
  FLASH : ORIGIN = 0x00000000, LENGTH = 256K
  CARD  : ORIGIN = 0x20000000, LENGTH = 6144 + card_stack_bytes
  LINE  : ORIGIN = 0x21000000, LENGTH = 4M
}

SECTIONS
{
  .flash : { KEEP(*(.vectors)) *(.text .text.*) *(.rodata .rodata.*) } > FLASH

  .card (NOLOAD) :
  {
    card_stack = .;
    . += card_stack_bytes;
    card_stack_top = .;
    card_area = .;
    . += 6144;
  } > CARD

  .line (NOLOAD) : { *(.bss .bss.*) *(COMMON) . = ALIGN(8); . += 64K; line_stack_top = .; } > LINE

  /* Nothing is copied at the start: neither side may have data that begins with values. */
  .data : { *(.data .data.*) } > LINE
  ASSERT(SIZEOF(.data) == 0, "data with values")

  /* No function unwinds. */
  /DISCARD/ : { *(.ARM.exidx*) *(.ARM.extab*) }
}
