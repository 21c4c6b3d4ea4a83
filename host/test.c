/* test [SEED [GROUPS]]: calls every function of the library and its plain twin on the same inputs, made by chance from the
   seed, and compares what they return and every byte of what was lent to them. A group is one book and some cases of each
   function on it and around it. Prints how often each refusal and each edge was met; fails on the first difference, on a read
   or write past what was lent, if some refusal was never met in a run of 100 groups or more, or some edge in one of 1000. */
#include "test.h"
#include <inttypes.h>
#include <stdio.h>
#include <stdlib.h>

static const struct {
    const char *name;
    int refusals[16];             /* those that it gives, 0 among them, ended by -1 */
} functions[FUNCTIONS] = {
    { "pc_book_read", { 0, 1, 2, 3, 4, 5, 6, 7, 8, 9, 10, 11, -1 } },
    { "pc_book_write", { 0, 12, 71, -1 } },
    { "pc_class", { 0, 3, 26, -1 } },
    { "pc_dash", { 0, 3, 26, -1 } },
    { "pc_frame_read", { 0, 12, 21, 22, 23, 24, -1 } },
    { "pc_frame_pack", { 0, 12, 21, 22, 25, 26, 27, -1 } },
    { "pc_spread", { 0, 12, 61, 62, -1 } },
    { "pc_fault_sum", { 0, 31, 32, -1 } },
    { "pc_power_step", { 0, 41, 42, 43, 91, -1 } },
    { "pc_power_step_by", { 0, 41, 42, 43, 44, 91, -1 } },
    { "pc_sleep_start", { 0, -1 } },
    { "pc_sleep_watch", { 0, 51, 92, -1 } },
};

enum { BLOCKS = 8 };

static uint64_t met[FUNCTIONS][100], cases, seed = 1, group;
static struct lent blocks[BLOCKS];
static int used;
static enum function calling;
struct chance chance;

/* ---- Numbers by chance. */

uint32_t below(uint32_t bound) {
    return chance_below(&chance, bound);
}

int once_in(uint32_t times) {
    return one_in(&chance, times);
}

uint32_t any_number(void) {
    uint32_t edge = (uint32_t)1 << below(32);
    switch (below(4)) {
    case 0:
        return below(300);
    case 1:
        return edge - 1 + below(3);
    case 2:
        return 0xFFFFFFFFu - below(3);
    default:
        return (uint32_t)chance_word(&chance);
    }
}

/* ---- Lending and judging. */

void begin_case(enum function f) {
    calling = f;
    used = 0;
    cases++;
}

struct lent *lend(const char *name, const void *contents, size_t bytes) {
    lent_out(&blocks[used], &chance, name, contents, bytes, 0);
    return &blocks[used++];
}

struct lent *lend_bytes(const char *name, const void *contents, size_t bytes) {
    lent_out(&blocks[used], &chance, name, contents, bytes, once_in(4) ? below(8) : 0);
    return &blocks[used++];
}

void fail_case(const char *what, const char *name) {
    printf("%s: %s%s%s (seed %" PRIu64 ", group %" PRIu64 ", case %" PRIu64 ")\n", functions[calling].name, name, *name ? ": " : "", what,
           seed, group, cases);
    exit(1);
}

/* Whether it is in the list of the function's refusals. */
static int gives(enum function f, uint32_t number) {
    const int *refusal = functions[f].refusals;
    while (*refusal >= 0 && (uint32_t)*refusal != number)
        refusal++;
    return *refusal >= 0;
}

void judge(uint32_t library, uint32_t plain, int read_only) {
    char both[64];
    if (library != plain || !gives(calling, library)) {
        sprintf(both, "the library gave %" PRIu32 ", the plain one %" PRIu32, library, plain);
        fail_case(both, "");
    }
    for (int i = 0; i < used; i++) {
        const char *fault = lent_fault(&blocks[i], i < read_only || (library != 0 && calling != BOOK_READ));
        if (fault)
            fail_case(fault, blocks[i].name);
    }
    met[calling][library]++;
}

/* The machine stopped a call in a closed stretch, or elsewhere. */
static void stopped(const void *address) {
    for (int i = 0; i < used; i++) {
        const char *trespass = lent_trespass(&blocks[i], address);
        if (trespass)
            fail_case(trespass, blocks[i].name);
    }
    fail_case("a read or write outside all that was lent", "");
}

/* ---- The run. */

static void try_group(void) {
    make_good_book();
    try_long_length();
    try_texts();
    for (int i = 0; i < 16; i++) {
        try_frame_read();
        try_frame_pack();
        try_classes();
        try_fault_sum();
        try_power_step();
        try_power_step();
        try_sleep();
    }
    for (int i = 0; i < 10; i++)
        try_spread();
    for (int i = 0; i < 4; i++) {
        try_book_write();
        try_row_in_frame();
        try_lent_edge();
    }
    if (once_in(4))
        try_longest_text();
}

/* Prints how often each refusal was met. Gives how many never were. */
static int report_refusals(void) {
    int missed = 0;
    for (int f = 0; f < FUNCTIONS; f++) {
        printf("%-16s", functions[f].name);
        for (const int *refusal = functions[f].refusals; *refusal >= 0; refusal++) {
            printf("  %d: %" PRIu64, *refusal, met[f][*refusal]);
            missed += met[f][*refusal] == 0;
        }
        printf("\n");
    }
    return missed;
}

/* Sets up what is lent, and what happens where a call is stopped. */
static int ready(void) {
    for (int i = 0; i < BLOCKS; i++)
        if (!lent_open(&blocks[i]))
            return 0;
    return closed_watch(stopped);
}

int main(int argc, char **argv) {
    uint64_t groups = argc > 2 ? strtoull(argv[2], 0, 10) : 2000;
    if (argc > 1)
        seed = strtoull(argv[1], 0, 10);
    if (!ready()) {
        printf("no memory to lend, or no way to see a call stopped\n");
        return 1;
    }
    for (group = 0; group < groups; group++) {
        chance.state = seed * 0x100000001u + group * 0x9E3779B9u;
        try_group();
    }
    int refusals_missed = report_refusals(), edges_missed = report_edges();
    if ((refusals_missed && groups >= 100) || (edges_missed && groups >= 1000)) {
        printf("some %s was never met\n", refusals_missed ? "refusal" : "edge");
        return 1;
    }
    printf("%" PRIu64 " cases, no difference (seed %" PRIu64 ")\n", cases, seed);
    return 0;
}
