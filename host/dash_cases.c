/* dash_cases: the stored cases of the dash on a machine without files. They stand in the image: CASES is their file, a line a case as
   host/vectors.c reads it, and what came out is printed as there. */
#include "dash_line.h"

__asm__(".section .rodata\n.global cases, cases_end\ncases: .incbin \"" CASES "\"\ncases_end: .byte 0\n.previous\n");
extern const char cases[], cases_end[];

static uint32_t hex(const char *digits) {
    uint32_t value = 0;
    for (int i = 0; i < 8; i++)
        value = value * 16 + (uint32_t)(digits[i] <= '9' ? digits[i] - '0' : digits[i] - 'A' + 10);
    return value;
}

int main(void) {
    const char *line = cases;
    for (; cases_end - line >= 17 && line[16] == '\n'; line += 17)
        print_dash(hex(line), hex(line + 8));
    return line == cases_end ? 0 : 2;
}
