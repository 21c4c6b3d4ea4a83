/* bench IMPLEMENTATION CASE TIMES: makes one call so many times, by the library, which is the proved call, by the plain implementation, or by
   nothing: a function that returns at once, which shows what the loop around the calls costs. tester/measure takes the count of instructions at
   two numbers of times, as host/measure does.
   bench list: the names of the cases. */
#include "plain.h"
#include <stdio.h>
#include <stdlib.h>
#include <string.h>

typedef uint32_t charge_step(uint32_t *state, const uint32_t *seen);

static uint32_t no_charge_step(uint32_t *state, const uint32_t *seen) {
    (void)state, (void)seen;
    return 0;
}

/* The one that is measured. */
static charge_step *step;

/* Up to ready, and down by a lost condition each time; without a weld the third is never lost. A turn of each case goes through
   as many observations. */
enum { TURN = 11 };
static const uint32_t walk[TURN][PCT_CHARGE_WORDS] = {
    { 1, 1, 0, 0, 0, 0, 1, 1, 0, 1, 1 }, /* plug seen */
    { 1, 0, 0, 0, 0, 0, 1, 1, 0, 1, 1 }, /* self-checked */
    { 1, 0, 0, 0, 0, 0, 1, 1, 0, 1, 1 }, /* no weld */
    { 1, 0, 0, 0, 0, 0, 2, 2, 0, 1, 1 }, /* main closed */
    { 1, 0, 0, 0, 0, 0, 2, 2, 1, 1, 1 }, /* allowed */
    { 1, 0, 0, 0, 0, 0, 2, 2, 1, 2, 2 }, /* ready */
    { 1, 0, 0, 0, 0, 0, 2, 2, 1, 1, 1 }, /* allowed */
    { 1, 0, 0, 0, 0, 0, 2, 2, 0, 1, 1 }, /* main closed */
    { 1, 0, 0, 0, 0, 0, 1, 1, 0, 1, 1 }, /* no weld */
    { 1, 1, 0, 0, 0, 0, 1, 1, 0, 1, 1 }, /* plug seen */
    { 0, 0, 0, 0, 0, 0, 1, 1, 0, 1, 1 }, /* start */
};
enum { AT_READY = 5 };

static uint32_t call_walk(uint32_t turn) {
    static uint32_t state = PCT_CHARGE_START;
    return step(&state, walk[turn % TURN]);
}

static uint32_t call_ready(uint32_t turn) {
    uint32_t state = PCT_CHARGE_READY;
    (void)turn;
    return step(&state, walk[AT_READY]);
}

/* With the plug in and none welded. */
static uint32_t call_fault(uint32_t turn) {
    uint32_t state = PCT_CHARGE_FAULT;
    (void)turn;
    return step(&state, walk[AT_READY]);
}

/* Each count too wide in turn. */
static uint32_t call_too_wide(uint32_t turn) {
    uint32_t state = PCT_CHARGE_READY, seen[PCT_CHARGE_WORDS];
    memcpy(seen, walk[AT_READY], sizeof seen);
    seen[turn % TURN] += 8;
    step(&state, seen);
    return 0;
}

static const struct {
    const char *name;
    uint32_t (*call)(uint32_t);
} cases[] = {
    { "charge-walk", call_walk },
    { "charge-ready", call_ready },
    { "charge-fault", call_fault },
    { "charge-too-wide", call_too_wide },
};
enum { CASES = sizeof cases / sizeof *cases };

int main(int argc, char **argv) {
    if (argc == 2 && strcmp(argv[1], "list") == 0) {
        for (int i = 0; i < CASES; i++)
            puts(cases[i].name);
        return 0;
    }
    for (int i = 0; argc == 4 && i < CASES; i++)
        if (strcmp(argv[2], cases[i].name) == 0) {
            uint32_t times = (uint32_t)strtoul(argv[3], 0, 10), refused = 0;
            step = strcmp(argv[1], "library") == 0 ? pct_charge_step : strcmp(argv[1], "plain") == 0 ? plain_charge_step : no_charge_step;
            for (uint32_t turn = 0; turn < times; turn++)
                refused += cases[i].call(turn) != 0;
            if (refused)
                fprintf(stderr, "bench: %u calls were refused\n", (unsigned)refused);
            return refused != 0;
        }
    fprintf(stderr, "bench: usage: bench library|plain|nothing CASE TIMES, or bench list\n");
    return 2;
}
