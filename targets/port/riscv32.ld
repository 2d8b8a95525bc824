/* virt: everything in its memory, from 0x80000000. */
ENTRY(start)
MEMORY {
    RAM (rwx) : ORIGIN = 0x80000000, LENGTH = 8M
}
SECTIONS {
    .text : { KEEP(*(.start)) *(.text*) *(.rodata*) *(.srodata*) } > RAM
    .data : ALIGN(4) { *(.data*) *(.sdata*) } > RAM
    .bss (NOLOAD) : ALIGN(4) { bss_start = .; *(.sbss*) *(.bss*) *(COMMON) . = ALIGN(4); bss_end = .; } > RAM
    stack_top = ORIGIN(RAM) + LENGTH(RAM);
    /DISCARD/ : { *(.eh_frame*) }
}
