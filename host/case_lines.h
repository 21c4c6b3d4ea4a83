/* The stored cases on standard input: hex digits of a fixed count, and lines. */
#ifndef CASE_LINES_H
#define CASE_LINES_H

#include <inttypes.h>
#include <stdio.h>
#include <stdlib.h>

enum { MOST_BYTES = 1 << 20 };
static uint8_t input[MOST_BYTES];
static size_t length, at;

static uint32_t hex(int digits) {
    uint32_t value = 0;
    for (int i = 0; i < digits; i++) {
        uint8_t c = at < length ? input[at++] : '0';
        value = value * 16 + (uint32_t)(c <= '9' ? c - '0' : c - 'A' + 10);
    }
    return value;
}

static void end_of_line(void) {
    if (at >= length || input[at] != '\n') {
        fprintf(stderr, "vectors: byte %zu of the input ends no line\n", at);
        exit(2);
    }
    at++;
}

static void print_refusal(uint32_t refusal) {
    printf("no\t%" PRIu32 "\n", refusal);
}

#endif
