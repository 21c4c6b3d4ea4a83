/* The start of a Cortex-M7 without an operating system: vectors, .data and .bss, then main with the words that QEMU hands over by
   semihosting, and the output the same way. A fault ends the run with status 99. An access off its alignment is made to fault, and the
   float unit stays off, so that a run shows that the library asks for neither. newlib's memcpy and memmove do ask for the first, and two
   plain ones stand in for them. With -DAS_SHIPPED none of this: newlib's own, and no trap. */
#include "start.h"
#include <stdint.h>

extern uint32_t data_from[], data_start[], data_end[], bss_start[], bss_end[];
int main(int, char **);
void initialise_monitor_handles(void);    /* newlib's librdimon: printf by semihosting */
void exit(int);
void reset(void);
void stack_top(void);                     /* no function: the address where the stack begins */

void (*when_closed)(const void *address);

enum { SYS_WRITE0 = 0x04, SYS_GET_CMDLINE = 0x15, SYS_EXIT_EXTENDED = 0x20, APPLICATION_EXIT = 0x20026, FAULT = 99 };

static int semihost(int number, void *block) {
    register int r0 __asm__("r0") = number;
    register void *r1 __asm__("r1") = block;
    __asm__ volatile("bkpt 0xAB" : "+r"(r0) : "r"(r1) : "memory");
    return r0;
}

__attribute__((noreturn)) static void leave(uint32_t status) {
    uint32_t block[2] = { APPLICATION_EXIT, status };
    semihost(SYS_EXIT_EXTENDED, block);
    for (;;) {
    }
}

static void fault(void) {
    static char said[] = "fault\n";
    semihost(SYS_WRITE0, said);
    leave(FAULT);
}

/* The memory protection stopped somebody; whether the address is known stands in CFSR, the address in MMFAR. */
static void closed(void) {
    if (when_closed && *(volatile uint32_t *)0xE000ED28 & 1u << 7)
        when_closed(*(const void *volatile *)0xE000ED34);
    fault();
}

__attribute__((section(".vectors"), used)) static void (*const vectors[16])(void) = {
    stack_top, reset, fault, fault, closed, fault, fault, 0, 0, 0, 0, fault, fault, 0, fault, fault,
};

static void trap_what_is_off_its_alignment(void) {
#ifndef AS_SHIPPED
    *(volatile uint32_t *)0xE000ED14 |= 1u << 3; /* CCR.UNALIGN_TRP */
#endif
}

void reset(void) {
    static char line[256];
    static char *words[16];
    struct {
        char *at;
        uint32_t length;
    } block = { line, sizeof line };
    int count = 0;
    for (uint32_t *to = data_start, *from = data_from; to < data_end;)
        *to++ = *from++;
    for (uint32_t *to = bss_start; to < bss_end;)
        *to++ = 0;
    trap_what_is_off_its_alignment();
    semihost(SYS_GET_CMDLINE, &block);
    for (char *at = line; *at && count < 15;) {
        words[count++] = at;
        while (*at && *at != ' ')
            at++;
        if (*at)
            *at++ = 0;
    }
    initialise_monitor_handles();
    exit(main(count, words));
}

#ifndef AS_SHIPPED
void *memcpy(void *to, const void *from, __SIZE_TYPE__ count) {
    for (__SIZE_TYPE__ i = 0; i < count; i++)
        ((volatile uint8_t *)to)[i] = ((const uint8_t *)from)[i];
    return to;
}
void *memmove(void *to, const void *from, __SIZE_TYPE__ count) {
    if ((uint32_t)to <= (uint32_t)from)
        return memcpy(to, from, count);
    while (count-- > 0)
        ((volatile uint8_t *)to)[count] = ((const uint8_t *)from)[count];
    return to;
}
#endif

void _exit(int status) {
    leave((uint32_t)status);
}
void _init(void) {
}
void _fini(void) {
}
