/* faults KIND: what the bare machine has to stop: a load off its alignment (unaligned), a float register (float), a read past an open
   stretch (closed). Without these runs, one that is not stopped would say nothing. */
#include "closed.h"
#include <stdio.h>
#include <stdlib.h>
#include <string.h>

static const uint8_t *open;

static void stopped(const void *address) {
    printf("stopped at byte %d\n", (int)((const uint8_t *)address - open));
    exit(1);
}

static int past_the_end(void) {
    open = closed_between();
    if (!open || !closed_watch(stopped))
        return 0;
    return ((const volatile uint8_t *)open)[CLOSED_ROOM - 1] + ((const volatile uint8_t *)open)[CLOSED_ROOM] - 510;
}

int main(int argc, char **argv) {
    static int at[2];
    const char *kind = argc > 1 ? argv[1] : "";
    if (strcmp(kind, "unaligned") == 0)
        __asm__ volatile("ldr r3, [%0, #1]" : : "r"(at) : "r3");
    if (strcmp(kind, "float") == 0)
        __asm__ volatile(".fpu fpv5-sp-d16\n vmov s0, s1");
    if (strcmp(kind, "closed") == 0)
        past_the_end();
    printf("not stopped\n");
    return 0;
}
