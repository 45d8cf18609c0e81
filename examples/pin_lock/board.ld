/* mps2-an385: code at 0, data from 0x20000000. */
MEMORY
{
    CODE (rx) : ORIGIN = 0x00000000, LENGTH = 4M
    DATA (rw) : ORIGIN = 0x20000000, LENGTH = 4M
}

ENTRY(reset)

SECTIONS
{
    .text : { KEEP(*(.vectors)) *(.text*) *(.rodata*) } > CODE
    .data : ALIGN(4) { data_begin = .; *(.data*) . = ALIGN(4); data_end = .; } > DATA AT > CODE
    data_from = LOADADDR(.data);
    .bss (NOLOAD) : ALIGN(4) { bss_begin = .; *(.bss*) *(COMMON) . = ALIGN(4); bss_end = .; } > DATA
    stack_top = ORIGIN(DATA) + LENGTH(DATA);
    /DISCARD/ : { *(.skipguard.map) *(.ARM.exidx*) *(.comment) }
}
