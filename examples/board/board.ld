/* A board: code and constants in flash at 0, and memory that is written in RAM. The linker gets with --defsym where the RAM begins
 * (RAM_BEGIN), how many bytes it has (RAM_SIZE), and how many the stack needs (STACK_SIZE). The stack begins at its end, and the heap grows from `heap_begins` upwards. */
MEMORY
{
  flash (rx) : ORIGIN = 0, LENGTH = 4M
  ram (rwx) : ORIGIN = RAM_BEGIN, LENGTH = RAM_SIZE
}
ENTRY(reset)
SECTIONS
{
  .text : { KEEP(*(.vectors)) *(.text*) *(.rodata*) . = ALIGN(4); } > flash
  .ARM.exidx : { *(.ARM.exidx*) } > flash
  .data : ALIGN(8) { data_begins = .; *(.data*) . = ALIGN(8); data_ends = .; } > ram AT > flash
  data_in_flash = LOADADDR(.data);
  .bss (NOLOAD) : ALIGN(8) { bss_begins = .; *(.bss*) *(COMMON) . = ALIGN(8); bss_ends = .; } > ram
  heap_begins = .;
  end = .;
  __end__ = .;
  stack_begins = RAM_BEGIN + RAM_SIZE;
  ASSERT(bss_ends + (DEFINED(STACK_SIZE) ? STACK_SIZE : 0) <= stack_begins, "what is static and the stack need more RAM")
}
