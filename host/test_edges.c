/* The edges of the comparison: inputs that tell a rule from one that is off by one. Each family of them stands in the list below, and how
   often each edge was met is counted, so that a later change to the drawing can't lose one unseen. */
#include "edge_text.h"
#include "test.h"
#include <inttypes.h>
#include <stdio.h>

enum { MOST_EDGES = 4096 };

static const struct {
    const char *name;
    uint32_t count;               /* of its edges; where they are counted they have an order */
} families[FAMILIES] = {
    [LONG_LENGTHS] = { "a length over 32 bits", 10 },
    [TEXT_LENGTHS] = { "lengths of a text", 4 },
    [FULL_TABLES] = { "a table full, and one line more", 6 },
    [FULL_LINES] = { "full tables, and a line wrong by itself", FULL_TEXTS },
    [EDGE_LINES] = { "lines at a limit", EDGE_TEXTS },
    [KNOTS] = { "loops and doubling, on line 1 and later", 4 },
    [BOOK_COUNTS] = { "counts of a lent book, the most and one over", 9 },
    [LENT_EDGES] = { "one number of a lent book at a limit", LENT_BOOKS },
    [SPREAD_ROOMS] = { "room for a spread", 4 },
    [SPREAD_PLACES] = { "bus and identifier of a place", 8 },
    [WRITE_COUNTS] = { "counts of a book to write, most and one over", 9 },
    [WRITE_ROOMS] = { "room for a text", 5 + 2 },
    [WRITE_BOOKS] = { "books to write, empty, full and in part", 10 },
    [WRITE_REFUSED] = { "tables of a book not to write, and no room", 5 * 2 },
    [WRITE_LONGEST] = { "room for the longest text", 3 },
    [ROW_COUNTS] = { "counts at each row's limits, marks and bits", PLAIN_ROWS * ROW_EDGES },
    [ROW_FRAMES] = { "the same counts packed and read", PLAIN_ROWS * ROW_EDGES },
    [SIGNAL_NUMBERS] = { "numbers of signals and between", 2048 },
    [READ_ROOMS] = { "room for readings", 6 },
    [CHECKS] = { "checksums in a frame", 4 },
    [FRAME_LENGTHS] = { "lengths of a frame to read", 3 },
    [PACK_LENGTHS] = { "lengths of a frame to pack", 3 },
    [PACK_COUNTS] = { "counts of values to pack", 3 },
    [FRAME_PLACES] = { "frames at each of eight bytes of a word", 16 },
    [FAULT_ALONE] = { "one fault count alone", 27 * 4 },
    [FAULT_LIMITS] = { "fault counts at their width", 27 * 2 },
    [FAULT_LENGTHS] = { "lengths of the fault counts", 4 },
    [FAULT_AGREEMENT] = { "1901 beside the highest level", 3 },
    [POWER_RULES] = { "state, relays, command and 1604", 7 * 8 * 4 * 4 },
    [POWER_VOLTAGES] = { "precharge: voltages 0, highest and invalid", 8 },
    [POWER_HUNDREDTHS] = { "precharge: 100 x outside by share x inside", 21 },
    [POWER_NONE] = { "precharge: the same, no share given", 21 },
    [POWER_SHARES] = { "precharge: each share just missed, just met", 51 * 2 },
    [POWER_WRONG_SHARES] = { "shares that are none", 10 },
    [POWER_CURRENTS] = { "on: current around 10 A either way", 6 },
    [POWER_LIMITS] = { "each number of a power step at its limit", 10 * 4 },
    [POWER_ORDER] = { "two refusals of a power step at once", 10 },
    [SLEEP_AGES] = { "age, state and wake of a sleep watch", 9 * 2 * 3 },
    [SLEEP_STATES] = { "sleep states, and none", 4 },
    [SLEEP_ROUND] = { "ages round the end of the clock", 4 },
};

static uint32_t edges_met[FAMILIES][MOST_EDGES];

void meet(enum edges family, uint32_t which) {
    edges_met[family][which]++;
}

void meet_each(enum edges family, const int *holds, uint32_t count) {
    for (uint32_t i = 0; i < count; i++)
        edges_met[family][i] += holds[i] != 0;
}

uint32_t place_in(const uint32_t *list, uint32_t count, uint32_t number) {
    uint32_t i = 0;
    while (i < count && list[i] != number)
        i++;
    return i;
}

int report_edges(void) {
    int missed = 0;
    for (int f = 0; f < FAMILIES; f++) {
        uint32_t rarest = 0, never = 0;
        for (uint32_t i = 0; i < families[f].count; i++) {
            never += edges_met[f][i] == 0;
            if (edges_met[f][i] < edges_met[f][rarest])
                rarest = i;
        }
        printf("%-44s  %" PRIu32 " edges, each met %" PRIu32 " times or more", families[f].name, families[f].count, edges_met[f][rarest]);
        if (never)
            printf("; %" PRIu32 " never met, the first is %" PRIu32, never, rarest);
        printf("\n");
        missed += never != 0;
    }
    return missed;
}
