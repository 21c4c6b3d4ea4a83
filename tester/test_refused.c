/* The cases in order that are mostly refused: counts too wide, numbers that are no state; and what a caller may lend by mistake or on purpose:
   memory that was never set, counts that nobody can write. */
#include "test.h"
#include <string.h>

/* Observations with which a wide count stands: all conditions hold; none does but the third; all are 0; a relay is welded and the plug is out;
   a relay is welded and all else is good. It is not the same relay in both, so that each wide count stands with a weld. */
enum { AMONG = 5 };
static const uint32_t among[AMONG][PCT_CHARGE_WORDS] = {
    { 1, 0, 0, 0, 0, 0, 2, 2, 1, 2, 2 }, { 4, 3, 0, 0, 0, 0, 1, 3, 0, 3, 1 }, { 0 },
    { 0, 0, 1, 0, 0, 0, 1, 1, 0, 1, 1 }, { 1, 0, 0, 0, 0, 1, 2, 2, 1, 2, 2 },
};
enum { WIDEST = 3 };  /* the most bits that a count has */

/* A count among others that fit, at a power of two from its width on: just under, at and over it, and with the low bits that were there. */
static void try_count(struct step *given, uint32_t i) {
    uint32_t fitting = given->seen[i];
    for (uint32_t bit = counts[i].bits; bit < 32; bit++) {
        const uint32_t power = (uint32_t)1 << bit, around[4] = { power - 1, power, power + 1, power + fitting };
        for (int k = 0; k < 4; k++) {
            given->seen[i] = around[k];
            compare_in_order(given);
        }
    }
    given->seen[i] = 0xFFFFFFFFu;
    compare_in_order(given);
    given->seen[i] = fitting;
}

/* Each number of 8 bits in a count's place. */
static void try_small_counts(struct step *given, uint32_t i) {
    for (uint32_t small = 0; small < 256; small++) {
        given->seen[i] = small;
        compare_in_order(given);
    }
    given->seen[i] = among[0][i];
}

/* Two counts too wide among others that fit, with the low bits that were there: by the same bit; each by the same one of the bits over its
   width; by different bits, whose sum is 0. */
static void try_pair(struct step *given, uint32_t i, uint32_t j, uint32_t stride) {
    const uint32_t first = given->seen[i], second = given->seen[j];
    for (uint32_t bit = WIDEST + (i + j) % stride; bit < 32; bit += stride) {
        const uint32_t power = (uint32_t)1 << bit, over = power >> WIDEST;
        const uint32_t both[3][2] = { { power, power }, { over << counts[i].bits, over << counts[j].bits }, { power, ~power + 1 } };
        for (int k = 0; k < 3; k++) {
            given->seen[i] = both[k][0] + first;
            given->seen[j] = both[k][1] + second;
            compare_in_order(given);
        }
    }
    given->seen[i] = first;
    given->seen[j] = second;
}

/* Two counts too wide by a bit each, all else good: by every two bits, or one in so many of them. */
static void try_two_bits(struct step *given, uint32_t i, uint32_t j, uint32_t stride) {
    for (uint32_t one = counts[i].bits; one < 32; one++)
        for (uint32_t other = counts[j].bits + one % stride; other < 32; other += stride) {
            given->seen[i] = among[0][i] + ((uint32_t)1 << one);
            given->seen[j] = among[0][j] + ((uint32_t)1 << other);
            compare_in_order(given);
        }
    given->seen[i] = among[0][i];
    given->seen[j] = among[0][j];
}

/* Every choice of counts that are too wide: all by the same bit, from choice to choice another one; each by the first bit over its width; so,
   and by every bit under it. */
static void try_choices(struct step *given) {
    for (uint32_t choice = 1; choice < 1u << PCT_CHARGE_WORDS; choice++) {
        const uint32_t power = (uint32_t)1 << (WIDEST + choice % (32 - WIDEST));
        for (int k = 0; k < 3; k++) {
            for (int i = 0; i < PCT_CHARGE_WORDS; i++) {
                const uint32_t first = 1u << counts[i].bits, fitting = among[0][i];
                const uint32_t wide[3] = { fitting + power, fitting + first, 2 * first - 1 };
                given->seen[i] = choice >> i & 1 ? wide[k] : fitting;
            }
            compare_in_order(given);
        }
    }
}

/* A count too wide with every choice of welded relays, the plug in and out; all else is good. */
static void try_welds(struct step *given, uint32_t i) {
    for (uint32_t choice = 0; choice < 32; choice++) {
        memcpy(given->seen, among[0], sizeof given->seen);
        given->seen[PCT_SEEN_PLUG] = choice >> 4;
        for (int k = 0; k < 4; k++)
            given->seen[PCT_SEEN_MAIN_POSITIVE_WELDED + k] = choice >> k & 1;
        given->seen[i] += 1u << counts[i].bits;
        compare_in_order(given);
    }
}

/* Each count too wide, then it and each one before it. */
static void try_wide_among(struct step *given, uint32_t stride) {
    for (uint32_t i = 0; i < PCT_CHARGE_WORDS; i++) {
        try_count(given, i);
        for (uint32_t j = 0; j < i; j++)
            try_pair(given, i, j, stride);
    }
}

void try_wide_counts(uint32_t stride) {
    struct step given;
    for (given.state = 0; given.state < STATES; given.state++) {
        for (int k = 0; k < AMONG; k++) {
            memcpy(given.seen, among[k], sizeof given.seen);
            try_wide_among(&given, stride);
        }
        memcpy(given.seen, among[0], sizeof given.seen);
        for (uint32_t i = 0; i < PCT_CHARGE_WORDS; i++)
            try_small_counts(&given, i);
        for (uint32_t i = 0; i < PCT_CHARGE_WORDS; i++)
            for (uint32_t j = 0; j < i; j++)
                try_two_bits(&given, i, j, stride);
        for (uint32_t i = 0; i < PCT_CHARGE_WORDS; i++)
            try_welds(&given, i);
        try_choices(&given);
    }
}

/* A number that is no state among counts that fit, then with one that is too wide. */
static void try_no_state(struct step *given, uint32_t wide) {
    for (int k = 0; k < AMONG; k++) {
        memcpy(given->seen, among[k], sizeof given->seen);
        compare_in_order(given);
        given->seen[wide] += 1u << counts[wide].bits;
        compare_in_order(given);
    }
}

/* Each number of 8 bits that is no state; each bit over those of a state, and each two, with every state's bits under them. */
static void try_no_state_bits(struct step *given) {
    for (given->state = STATES; given->state < 256; given->state++)
        try_no_state(given, given->state % PCT_CHARGE_WORDS);
    for (uint32_t bit = STATE_BITS; bit < 32; bit++)
        for (uint32_t second = STATE_BITS; second <= bit; second++)
            for (uint32_t low = 0; low < STATES; low++) {
                given->state = ((uint32_t)1 << bit | (uint32_t)1 << second) + low;
                try_no_state(given, (bit + second + low) % PCT_CHARGE_WORDS);
            }
}

/* Those of the list with each count at all its widths, and one of them with every choice of wide counts; then by their bits. */
void try_no_states(void) {
    struct step given;
    for (int n = 0; n < NO_STATES; n++)
        for (int k = 0; k < AMONG; k++) {
            given.state = no_states[n];
            memcpy(given.seen, among[k], sizeof given.seen);
            compare_in_order(&given);
            for (uint32_t i = 0; i < PCT_CHARGE_WORDS; i++)
                try_count(&given, i);
        }
    given.state = no_states[0];
    try_choices(&given);
    try_no_state_bits(&given);
}

/* Memory that was never set: every count one and the same word, in every state, and the state that word too. */
void try_unset_memory(void) {
    static const uint32_t words[] = { 0xA5A5A5A5u, 0xFFFFFFFFu };
    struct step given;
    for (uint32_t k = 0; k < sizeof words / sizeof *words; k++) {
        for (int i = 0; i < PCT_CHARGE_WORDS; i++)
            given.seen[i] = words[k];
        for (given.state = 0; given.state < STATES; given.state++)
            compare_in_order(&given);
        given.state = words[k];
        compare_in_order(&given);
    }
}

/* Counts that nobody can write: where memory is kept so, a call that writes them is stopped, though it writes what was there. */
void try_constant_counts(void) {
    static const uint32_t too_wide[PCT_CHARGE_WORDS] = { 8, 4, 2, 2, 2, 2, 4, 4, 4, 4, 4 };
    const uint32_t *const lent[2] = { among[0], too_wide };
    struct step given;
    for (uint32_t from = 0; from <= STATES; from++)
        for (int k = 0; k < 2; k++) {
            uint32_t state = from, plain_state = from;
            given.state = from;
            memcpy(given.seen, lent[k], sizeof given.seen);
            begin_case(&given);
            uint32_t library = pct_charge_step(&state, lent[k]);
            judge(library, plain_charge_step(&plain_state, given.seen));
            if (state != plain_state)
                fail_case("the two left different contents", "state");
        }
}
