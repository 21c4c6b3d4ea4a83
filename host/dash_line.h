/* The line of one stored case of the dash, for host/vectors.c and for the bare machines (host/dash_cases.c). */
#ifndef DASH_LINE_H
#define DASH_LINE_H

#include "face.h"
#include <inttypes.h>
#include <stdio.h>

/* The double is printed as its bits. A union, so that nobody here asks for a float register. */
static void print_dash(uint32_t number, uint32_t raw) {
    union { double reading; uint64_t bits; } shown;
    uint32_t class_code, refusal = FACE(dash)(number, raw, &class_code, &shown.reading);
    if (refusal)
        printf("no\t%" PRIu32 "\n", refusal);
    else if (class_code == PC_VALUE)
        printf("value\t%016" PRIX64 "\n", shown.bits);
    else
        printf("%s\n", class_words[class_code]);
}

#endif
