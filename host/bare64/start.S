/* The first instructions of an AArch64 without an operating system, and where its faults go. The MMU stays off. An access off its
   alignment is made to fault, and so is every use of a float or vector register, so that a run shows that the library asks for neither;
   float_unit.c lets pc_dash alone have them. */
    .text
    .global reset, semihost
reset:
    ldr x0, =vectors
    msr vbar_el1, x0
    mrs x0, sctlr_el1
    orr x0, x0, #1 << 1                   // A: the alignment is checked
    msr sctlr_el1, x0
    msr cpacr_el1, xzr                    // FPEN: float and vector registers trap
    isb
    adr x30, start
on_a_new_stack:
    ldr x0, =stack_top
    mov sp, x0
    ret

semihost:
    hlt #0xf000
    ret

    .balign 2048
vectors:
    .rept 16
    adr x30, fault
    b on_a_new_stack
    .balign 128
    .endr
