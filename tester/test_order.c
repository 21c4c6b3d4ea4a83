/* The cases in order: how one is compared, and every state with every observation. The state and the counts stand in a row of words, with
   words around each of them that nobody may write. */
#include "test.h"
#include <string.h>

enum { AROUND = 2, STATE = AROUND, SEEN = STATE + 1 + AROUND, ROW = SEEN + PCT_CHARGE_WORDS + AROUND };

static uint32_t was[ROW], library_row[ROW], plain_row[ROW];

/* Ends the run where the two left different states, or the library one on a refusal, or somebody wrote anything else. */
static void judge_rows(uint32_t refusal) {
    uint32_t after = library_row[STATE], before = was[STATE];
    if (refusal != PCT_DONE && after != before)
        fail_case("the library changed it and may not", "state");
    if (after != plain_row[STATE])
        fail_case("the two left different contents", "state");
    library_row[STATE] = plain_row[STATE] = before;
    if (memcmp(was + SEEN, library_row + SEEN, 4 * PCT_CHARGE_WORDS) != 0)
        fail_case("the library changed it and may not", "seen");
    if (memcmp(was, library_row, sizeof was) != 0)
        fail_case("the library wrote beside it", memcmp(was, library_row, 4 * SEEN) != 0 ? "state" : "seen");
    if (memcmp(was, plain_row, sizeof was) != 0)
        fail_case("the plain implementation changed more than the state", "");
}

void compare_in_order(const struct step *given) {
    begin_case(given);
    was[STATE] = given->state;
    memcpy(was + SEEN, given->seen, sizeof given->seen);
    memcpy(library_row, was, sizeof was);
    memcpy(plain_row, was, sizeof was);
    uint32_t library = pct_charge_step(library_row + STATE, library_row + SEEN);
    uint32_t plain = plain_charge_step(plain_row + STATE, plain_row + SEEN), after = library_row[STATE];
    judge(library, plain);
    judge_rows(library);
    if (!meet_edges(IN_ORDER, given, library, after))
        fail_case("the rule has no such step", "");
}

/* The observation whose counts, side by side from the lowest bit on, are this number. */
static void spell(uint32_t *seen, uint32_t number) {
    for (int i = 0; i < PCT_CHARGE_WORDS; i++) {
        seen[i] = number & ((1u << counts[i].bits) - 1);
        number >>= counts[i].bits;
    }
}

void try_every_observation(uint32_t stride) {
    struct step given;
    uint32_t bits = 0;
    for (int i = 0; i < PCT_CHARGE_WORDS; i++)
        bits += counts[i].bits;
    for (uint32_t i = 0; i < ROW; i++)
        was[i] = 0xA5C30000u + i;
    for (given.state = 0; given.state < STATES; given.state++)
        for (uint32_t number = given.state % stride; number < 1u << bits; number += stride) {
            spell(given.seen, number);
            compare_in_order(&given);
        }
}
