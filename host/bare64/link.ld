/* QEMU's virt: memory from 0x40000000 on, of which the emulator keeps the first megabyte for its description of the machine. It loads .data
   where it runs, and empties .bss. */
MEMORY {
    code (rx) : ORIGIN = 0x40100000, LENGTH = 4M
    data (rw) : ORIGIN = 0x40500000, LENGTH = 16M
}
ENTRY(reset)
stack_top = ORIGIN(data) + LENGTH(data);
SECTIONS {
    .text : { *(.text .text.*) } >code
    .rodata : { *(.rodata .rodata.*) } >code
    .data : { *(.data .data.*) } >data
    .bss : { *(.bss .bss.* COMMON) } >data
}
