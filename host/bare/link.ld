/* QEMU's mps2-an500, a Cortex-M7: 4 MB of code at 0, 4 MB of data at 0x20000000; closed_mpu.c uses the 16 MB at 0x60000000. */
MEMORY {
    code (rx) : ORIGIN = 0x00000000, LENGTH = 4M
    data (rw) : ORIGIN = 0x20000000, LENGTH = 4M
}
ENTRY(reset)
stack_top = ORIGIN(data) + LENGTH(data);
SECTIONS {
    .text : { KEEP(*(.vectors)) *(.text .text.*) *(.rodata .rodata.*) *(.ARM.exidx*) *(.ARM.extab*) . = ALIGN(8); } >code
    data_from = LOADADDR(.data);
    .data : { data_start = .; *(.data .data.*) . = ALIGN(8); data_end = .; } >data AT>code
    .bss (NOLOAD) : { bss_start = .; *(.bss .bss.* COMMON) . = ALIGN(8); bss_end = .; } >data
    end = .;
}
