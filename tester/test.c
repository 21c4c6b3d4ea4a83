/* test [SEED [GROUPS [STRIDE]]]: calls pct_charge_step and its plain twin on the same inputs and compares what they return and every byte of
   what was lent to them: every state with every observation whose counts fit, or one in STRIDE of them; counts too wide in every state, each
   by itself, two at every two bits or at one in STRIDE of them, and more; numbers that are no state; memory that was never set; counts that
   nobody can write; then GROUPS walks made by chance from the seed. Prints how often each refusal and each edge was met; fails on the first
   difference, on a read or write past what was lent, if some refusal was never met, or some edge: in order where STRIDE is 1, by chance in a
   run of 1000 groups or more. */
#include "test.h"
#include <inttypes.h>
#include <stdio.h>
#include <stdlib.h>

enum { REFUSALS = 3 };
static const uint32_t refusals[REFUSALS] = { PCT_DONE, PCT_COUNT_TOO_WIDE, PCT_NOT_A_CHARGE_STATE };

static uint64_t met[REFUSALS], cases, seed = 1, group;
static struct step asked;

void begin_case(const struct step *given) {
    asked = *given;
    cases++;
}

void fail_case(const char *what, const char *name) {
    printf("pct_charge_step: %s%s%s (state %" PRIu32 ", seen", name, *name ? ": " : "", what, asked.state);
    for (int i = 0; i < PCT_CHARGE_WORDS; i++)
        printf(" %" PRIu32, asked.seen[i]);
    printf("; seed %" PRIu64 ", group %" PRIu64 ", case %" PRIu64 ")\n", seed, group, cases);
    exit(1);
}

void judge(uint32_t library, uint32_t plain) {
    char both[64];
    int which = 0;
    while (which < REFUSALS && refusals[which] != library)
        which++;
    if (library != plain || which == REFUSALS) {
        sprintf(both, "the library gave %" PRIu32 ", the plain one %" PRIu32, library, plain);
        fail_case(both, "");
    }
    met[which]++;
}

/* Prints how often each refusal was met. Gives how many never were. */
static int report_refusals(void) {
    int never = 0;
    printf("pct_charge_step");
    for (int i = 0; i < REFUSALS; i++) {
        printf("  %" PRIu32 ": %" PRIu64, refusals[i], met[i]);
        never += met[i] == 0;
    }
    printf("\n");
    return never;
}

int main(int argc, char **argv) {
    uint64_t groups = argc > 2 ? strtoull(argv[2], 0, 10) : 2000;
    uint32_t stride = argc > 3 ? (uint32_t)strtoull(argv[3], 0, 10) : 1;
    if (argc > 1)
        seed = strtoull(argv[1], 0, 10);
    if (stride == 0 || !open_walks()) {
        printf("no memory to lend, or no way to see a call stopped; or a STRIDE of 0\n");
        return 1;
    }
    try_every_observation(stride);
    try_wide_counts(stride);
    try_no_states();
    try_unset_memory();
    try_constant_counts();
    for (group = 1; group <= groups; group++)
        try_walk(seed * 0x100000001u + group * 0x9E3779B9u);
    int refusals_missed = report_refusals(), in_order_missed = report_edges(IN_ORDER), by_chance_missed = report_edges(BY_CHANCE);
    if (refusals_missed || (in_order_missed && stride == 1) || (by_chance_missed && groups >= 1000)) {
        printf("some %s was never met\n", refusals_missed ? "refusal" : "edge");
        return 1;
    }
    printf("%" PRIu64 " cases, no difference (seed %" PRIu64 ")\n", cases, seed);
    return 0;
}
