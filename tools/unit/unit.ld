/* QEMU's microbit, a Cortex-M0, with 512 KB of RAM where the board has 16: the log and the charts lie in RAM here. */
MEMORY
{
    flash (rx) : ORIGIN = 0, LENGTH = 256K
    ram (rwx) : ORIGIN = 0x20000000, LENGTH = 512K
}

SECTIONS
{
    .text : { KEEP(*(.vectors)) *(.text*) *(.rodata*) *(.ARM.ex*) . = ALIGN(8); } >flash
    data_from = LOADADDR(.data);
    .data : { data_start = .; *(.data*) . = ALIGN(8); data_end = .; } >ram AT>flash
    .bss (NOLOAD) : { bss_start = .; *(.bss*) *(COMMON) . = ALIGN(8); bss_end = .; end = .; } >ram
    stack_top = ORIGIN(ram) + LENGTH(ram);
}
