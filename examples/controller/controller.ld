/* mps2-an386, used as a small part would be: 256 KB of code, 64 KB of memory, and 32 pages that stand for flash. */
ENTRY(reset)
MEMORY {
    CODE (rx) : ORIGIN = 0x00000000, LENGTH = 256K
    RAM (rwx) : ORIGIN = 0x20000000, LENGTH = 64K - 4
    KEPT (rw) : ORIGIN = 0x2000fffc, LENGTH = 4
    FLASH (rw) : ORIGIN = 0x21000000, LENGTH = 32K
}
SECTIONS {
    .vectors : { KEEP(*(.vectors)) } > CODE
    .text : { *(.text*) *(.rodata*) } > CODE
    .ARM.exidx : { *(.ARM.exidx*) } > CODE
    /* The stack is lowest: one that overflows leaves the memory and faults, and overwrites no holder. */
    .stack (NOLOAD) : ALIGN(8) { stack_bottom = .; . += 16K; stack_top = .; } > RAM
    .data : ALIGN(4) { data_start = .; *(.data*) . = ALIGN(4); data_end = .; } > RAM AT> CODE
    data_image = LOADADDR(.data);
    .bss (NOLOAD) : ALIGN(4) { bss_start = .; *(.bss*) *(COMMON) . = ALIGN(4); bss_end = .; } > RAM
    mark = ORIGIN(KEPT);
    flash_start = ORIGIN(FLASH);
}
