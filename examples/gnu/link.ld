/* Where the parts of the thermostat stand. layout.json says the same to Valex. */
OUTPUT_FORMAT("elf32-powerpc")
OUTPUT_ARCH(powerpc)
ENTRY(_start)

__stack_end = 0x20010000;
__stop = 0x0ff00000;

PHDRS
{
  code PT_LOAD FLAGS(5);
  constants PT_LOAD FLAGS(4);
  variables PT_LOAD FLAGS(6);
}

SECTIONS
{
  .start 0x10000000 : { *(.start) } :code
  .driver : { *(.driver) } :code
  .text 0x10000080 : { *(.text) } :code

  .rodata 0x10010000 : { *(.rodata) } :constants
  .sdata2 : { _SDA2_BASE_ = . + 0x8000; *(.sdata2) } :constants

  .data 0x10020000 : { *(.data) } :variables
  .sdata : { _SDA_BASE_ = . + 0x8000; *(.sdata) } :variables
  .sbss : { *(.sbss) *(.scommon) } :variables
  .bss : { *(.bss) *(COMMON) } :variables
}
