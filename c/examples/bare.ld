/* Where a Cortex-M4 has the code of bare.c and of the library: the table of vectors is at 0. */
SECTIONS
{
    .text 0 : { KEEP(*(.vectors)) *(.text*) *(.rodata*) }
    .ARM.exidx : { *(.ARM.exidx*) }
}
