/* Places sections as `skipguard link --base 0x8000 --room 65536` does: code from the base on, then data. */
SECTIONS {
  .code 0x8000 : { *(.text .text.*) } = 0
  .data 0x18000 : { *(.rodata .rodata.* .data .data.* .bss .bss.*) } = 0
  /DISCARD/ : { *(.ARM.exidx* .ARM.extab* .ARM.attributes .comment .note*) }
}
