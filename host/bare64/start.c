/* From the first instructions (start.S) to main, with the words that QEMU hands over by semihosting; output and exit status go the same
   way. A fault ends the run with status 99. */
#include "start.h"
#include <stdint.h>
#include <stdlib.h>

int main(int, char **);
uint64_t semihost(uint64_t number, const void *block);

enum { SYS_WRITE0 = 0x04, SYS_GET_CMDLINE = 0x15, SYS_EXIT_EXTENDED = 0x20, APPLICATION_EXIT = 0x20026, FAULT = 99 };

void say(const char *text) {
    semihost(SYS_WRITE0, text);
}

void exit(int status) {
    uint64_t block[2] = { APPLICATION_EXIT, (uint64_t)status };
    semihost(SYS_EXIT_EXTENDED, block);
    for (;;) {
    }
}

void fault(void) {
    say("fault\n");
    exit(FAULT);
}

void start(void) {
    static char line[256];
    static char *words[16];
    uint64_t block[2] = { (uint64_t)line, sizeof line };
    int count = 0;
    semihost(SYS_GET_CMDLINE, block);
    for (char *at = line; *at && count < 15;) {
        words[count++] = at;
        while (*at && *at != ' ')
            at++;
        if (*at)
            *at++ = 0;
    }
    exit(main(count, words));
}
