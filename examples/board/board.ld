/* The memory of QEMU's mps2-an386, a Cortex-M4 with its code at 0. Another board needs another first line. */
MEMORY { CODE (rx) : ORIGIN = 0x00000000, LENGTH = 4M  RAM (rw) : ORIGIN = 0x20000000, LENGTH = 4M }
ENTRY(reset)
SECTIONS {
  .text : { KEEP(*(.vectors)) *(.text*) *(.rodata*) } > CODE
  .ARM.exidx : { *(.ARM.exidx*) } > CODE
  .stack (NOLOAD) : { *(.stack) *(.stack.faults) } > RAM
  .data : { . = ALIGN(4); data_begin = .; *(.data*) . = ALIGN(4); data_end = .; } > RAM AT > CODE
  data_from = LOADADDR(.data);
  .bss (NOLOAD) : { . = ALIGN(8); bss_begin = .; *(.bss*) *(COMMON) . = ALIGN(8); bss_end = .; } > RAM
  .unwound (NOLOAD) : { *(.ARM.extab*) } > CODE
}
