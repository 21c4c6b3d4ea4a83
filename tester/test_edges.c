/* The edges of the comparison: what tells the rule from one that is off by one. How often each was met is counted, so that a later change to
   the drawing can't lose one unseen. */
#include "test.h"
#include <inttypes.h>
#include <stdio.h>

const struct count counts[PCT_CHARGE_WORDS] = {
    { 3, 0xE, 1 },                                                  /* 1708: 1, 2 or 3 */
    { 2, 0x1, 2 },                                                  /* 1605: 0 */
    { 1, 0x1, 3 }, { 1, 0x1, 3 }, { 1, 0x1, 3 }, { 1, 0x1, 3 },     /* 311, 313, 325, 327: 0 */
    { 2, 0x4, 4 }, { 2, 0x4, 4 },                                   /* 301, 302: 2 */
    { 2, 0x2, 5 },                                                  /* 1709: 1 */
    { 2, 0x4, 6 }, { 2, 0x4, 6 },                                   /* 304, 306: 2 */
};

/* Just over the states; low bits of a state in 8 bits, 16 and more; the ends of the 32 bits. */
const uint32_t no_states[NO_STATES] = { 8, 9, 255, 256, 0x10006, 0x80000000u, 0x80000003u, 0xFFFFFFFFu };

/* From each state those that may follow, a bit each, the lowest for start. Self-checked follows on plug seen alone, and never on itself: where
   nothing is welded, the third condition holds as well. */
static const uint8_t next_states[STATES] = { 0x83, 0x87, 0x8B, 0x9B, 0xBB, 0xFB, 0xFB, 0x81 };

enum family { MOVES, LOST, WELDED, IN_FAULT, WELDED_UNPLUGGED, TOO_WIDE, WIDE_WELDED, WIDE_PAIR, NO_STATE, NO_STATE_BIT, FAMILIES };

static const char *const names[FAMILIES] = {
    [MOVES] = "from each state to each that may follow",
    [LOST] = "each condition the first lost, in each state",
    [WELDED] = "each relay alone welded, in each state",
    [IN_FAULT] = "each 1708 in fault with none welded",
    [WELDED_UNPLUGGED] = "each relay alone welded in fault, plug out",
    [TOO_WIDE] = "each count alone too wide, in each state",
    [WIDE_WELDED] = "each count alone too wide with one weld, in each state",
    [WIDE_PAIR] = "each pair of counts too wide, none else",
    [NO_STATE] = "no state, with good counts and with wide ones",
    [NO_STATE_BIT] = "no state by one bit, with each state's bits under it",
};

/* By family, state (of NO_STATE, the place in its list; of NO_STATE_BIT, the low bits) and what else it takes. */
enum { PAIRS = PCT_CHARGE_WORDS * (PCT_CHARGE_WORDS - 1) / 2, MOST = PAIRS };
static uint32_t met[WAYS][FAMILIES][STATES][MOST];

/* Where an edge is counted: by chance those of the two large families in all states together, under the first. */
static uint32_t row(enum way way, enum family family, uint32_t state) {
    return way == BY_CHANCE && (family == WIDE_PAIR || family == NO_STATE_BIT) ? 0 : state;
}

static int is_edge(enum family family, uint32_t state, uint32_t which) {
    int in_fault = state == PCT_CHARGE_FAULT;
    switch (family) {
    case MOVES:
        return which < STATES && next_states[state] >> which & 1;
    case LOST:
        return !in_fault && which >= 1 && which <= state;
    case WELDED:
        return which < 4;
    case IN_FAULT:
        return in_fault && which < 8;
    case WELDED_UNPLUGGED:
        return in_fault && which < 4;
    case TOO_WIDE:
    case WIDE_WELDED:
        return which < PCT_CHARGE_WORDS;
    case WIDE_PAIR:
        return which < PAIRS;
    case NO_STATE_BIT:
        return which < 32 - STATE_BITS;
    default:
        return which < 2;
    }
}

/* How many counts are too wide; which are the last of them and the one before it. */
static uint32_t too_wide(const uint32_t *seen, uint32_t *last, uint32_t *before) {
    uint32_t many = *last = *before = 0;
    for (uint32_t i = 0; i < PCT_CHARGE_WORDS; i++)
        if (seen[i] >> counts[i].bits != 0) {
            many++;
            *before = *last;
            *last = i;
        }
    return many;
}

/* The first condition that does not hold; one over the last where all do. */
static uint32_t first_lost(const uint32_t *seen) {
    uint32_t first = CONDITIONS + 1;
    for (uint32_t i = 0; i < PCT_CHARGE_WORDS; i++)
        if (!(counts[i].good >> seen[i] & 1) && counts[i].condition < first)
            first = counts[i].condition;
    return first;
}

/* A step that was taken. */
static int meet_taken(enum way way, const struct step *given, uint32_t after) {
    const uint32_t *seen = given->seen, *welds = seen + PCT_SEEN_MAIN_POSITIVE_WELDED;
    uint32_t state = given->state, lost = first_lost(seen), welded = welds[0] + welds[1] + welds[2] + welds[3];
    if (!is_edge(MOVES, state, after) || (after == PCT_CHARGE_READY && lost <= CONDITIONS))
        return 0;
    met[way][MOVES][state][after]++;
    if (is_edge(LOST, state, lost))
        met[way][LOST][state][lost]++;
    if (state == PCT_CHARGE_FAULT && welded == 0)
        met[way][IN_FAULT][state][seen[PCT_SEEN_PLUG]]++;
    for (uint32_t i = 0; i < 4 && welded == 1; i++) {
        met[way][WELDED][state][i] += welds[i];
        if (state == PCT_CHARGE_FAULT && seen[PCT_SEEN_PLUG] == 0)
            met[way][WELDED_UNPLUGGED][state][i] += welds[i];
    }
    return 1;
}

/* A step in a state that was refused for what was seen. */
static void meet_too_wide(enum way way, const struct step *given) {
    uint32_t state = given->state, last, before, wide = too_wide(given->seen, &last, &before), welded = 0;
    for (uint32_t i = 0; i < 4; i++)
        welded += given->seen[PCT_SEEN_MAIN_POSITIVE_WELDED + i] == 1;
    if (wide == 1)
        met[way][TOO_WIDE][state][last]++;
    if (wide == 1 && welded == 1)
        met[way][WIDE_WELDED][state][last]++;
    if (wide == 2)
        met[way][WIDE_PAIR][row(way, WIDE_PAIR, state)][last * (last - 1) / 2 + before]++;
}

/* A step from a number that is no state. */
static void meet_no_state(enum way way, const struct step *given) {
    uint32_t last, before, wide = too_wide(given->seen, &last, &before), none = 0, low = given->state % STATES, bit = STATE_BITS;
    while (none < NO_STATES && no_states[none] != given->state)
        none++;
    if (none < NO_STATES)
        met[way][NO_STATE][none][wide > 0]++;
    while (given->state >> bit > 1)
        bit++;
    if (given->state == ((uint32_t)1 << bit) + low)
        met[way][NO_STATE_BIT][row(way, NO_STATE_BIT, low)][bit - STATE_BITS]++;
}

int meet_edges(enum way way, const struct step *given, uint32_t refusal, uint32_t after) {
    if (refusal == PCT_DONE)
        return meet_taken(way, given, after);
    if (given->state < STATES)
        meet_too_wide(way, given);
    else
        meet_no_state(way, given);
    return 1;
}

static int report(enum way way, enum family family) {
    uint32_t many = 0, least = UINT32_MAX, never = 0;
    for (uint32_t state = 0; state < STATES; state++)
        for (uint32_t which = 0; which < MOST; which++)
            if (row(way, family, state) == state && is_edge(family, state, which)) {
                uint32_t times = met[way][family][state][which];
                many++;
                never += times == 0;
                if (times < least)
                    least = times;
            }
    printf("%-54s  %" PRIu32 " edges, each met %" PRIu32 " times or more", names[family], many, least);
    if (never)
        printf("; %" PRIu32 " never met", never);
    printf("\n");
    return (int)never;
}

int report_edges(enum way way) {
    int never = 0;
    printf("%s:\n", way == IN_ORDER ? "in order" : "by chance");
    for (int family = 0; family < FAMILIES; family++)
        never += report(way, (enum family)family);
    return never;
}
