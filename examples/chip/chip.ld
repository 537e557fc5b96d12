/* Code from 0 on, data from 0x20000000 on, as on ARM's board MPS2 with the image AN386, a Cortex-M4F. */
MEMORY
{
    code (rx) : ORIGIN = 0x00000000, LENGTH = 4M
    ram (rwx) : ORIGIN = 0x20000000, LENGTH = 4M
}

SECTIONS
{
    .text : { KEEP(*(.vectors)) *(.text*) *(.rodata*) . = ALIGN(4); } > code
    .ARM.exidx : { *(.ARM.exidx*) . = ALIGN(4); } > code
    .data : { data_start = .; *(.data*) . = ALIGN(4); data_end = .; } > ram AT > code
    data_kept = LOADADDR(.data);
    .bss : { bss_start = .; *(.bss*) *(COMMON) . = ALIGN(8); bss_end = .; end = .; } > ram
    stack_top = ORIGIN(ram) + LENGTH(ram);
    __heap_limit = stack_top - 64K;
}
