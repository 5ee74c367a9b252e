/* The RP2040: the second stage of its start, the vectors after it, code and constants in flash, and what is written in RAM, as board.ld has it. */
MEMORY
{
  flash (rx) : ORIGIN = 0x10000000, LENGTH = 0x1E0000
  ram (rwx) : ORIGIN = 0x20000000, LENGTH = 264K
}
ENTRY(reset)
SECTIONS
{
  .boot2 : { KEEP(*(.boot2)) } > flash
  .text : { KEEP(*(.vectors)) *(.text*) *(.rodata*) . = ALIGN(4); } > flash
  .ARM.exidx : { *(.ARM.exidx*) } > flash
  .data : ALIGN(8) { data_begins = .; *(.data*) *(.in_ram) . = ALIGN(8); data_ends = .; } > ram AT > flash
  data_in_flash = LOADADDR(.data);
  .bss (NOLOAD) : ALIGN(8) { bss_begins = .; *(.bss*) *(COMMON) . = ALIGN(8); bss_ends = .; } > ram
  heap_begins = .;
  end = .;
  __end__ = .;
  stack_begins = ORIGIN(ram) + LENGTH(ram);
  ASSERT(SIZEOF(.boot2) == 256, "the second stage has 256 bytes")
  ASSERT(bss_ends + STACK_SIZE <= stack_begins, "what is static and the stack need more RAM")
}
