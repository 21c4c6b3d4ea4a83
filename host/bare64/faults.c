/* faults KIND: what the bare machine has to stop: a load off its alignment (unaligned), a float register (float); the first letter tells
   them apart. Without these runs, one that is not stopped would say nothing. */
#include <stdio.h>

int main(int argc, char **argv) {
    static long at[2];
    char kind = argc > 1 ? *argv[1] : 0;
    if (kind == 'u')
        __asm__ volatile("ldr x9, [%0, #1]" : : "r"(at) : "x9");
    if (kind == 'f')
        __asm__ volatile(".arch armv8-a\n fmov d0, d1");
    printf("not stopped\n");
    return 0;
}
