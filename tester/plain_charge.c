/* The charging monitor. */
#include "plain.h"

enum { CLOSED = 2 };

/* The bits of each count, in the header's order. */
static const uint8_t bits[PCT_CHARGE_WORDS] = {
    3,          /* 1708 */
    2,          /* 1605 */
    1, 1, 1, 1, /* 311, 313, 325, 327 */
    2, 2,       /* 301, 302 */
    2,          /* 1709 */
    2, 2,       /* 304, 306 */
};

static int any_too_wide(const uint32_t *seen) {
    for (int i = 0; i < PCT_CHARGE_WORDS; i++)
        if (seen[i] >> bits[i] != 0)
            return 1;
    return 0;
}

static int any_welded(const uint32_t *seen) {
    return seen[PCT_SEEN_MAIN_POSITIVE_WELDED] == 1 || seen[PCT_SEEN_MAIN_NEGATIVE_WELDED] == 1 ||
           seen[PCT_SEEN_HEATING_POSITIVE_WELDED] == 1 || seen[PCT_SEEN_HEATING_NEGATIVE_WELDED] == 1;
}

/* Whether a condition, the first to the sixth, holds. There is none after the sixth. */
static int holds(uint32_t condition, const uint32_t *seen) {
    switch (condition) {
    case 1:
        return seen[PCT_SEEN_PLUG] >= 1 && seen[PCT_SEEN_PLUG] <= 3;
    case 2:
        return seen[PCT_SEEN_SELF_CHECK] == 0;
    case 3:
        return !any_welded(seen);
    case 4:
        return seen[PCT_SEEN_MAIN_POSITIVE] == CLOSED && seen[PCT_SEEN_MAIN_NEGATIVE] == CLOSED;
    case 5:
        return seen[PCT_SEEN_ALLOWED] == 1;
    case 6:
        return seen[PCT_SEEN_CHARGE_POSITIVE] == CLOSED && seen[PCT_SEEN_CHARGE_NEGATIVE] == CLOSED;
    default:
        return 0;
    }
}

/* A state but fault is the number of conditions met so far. */
static uint32_t next_state(uint32_t state, const uint32_t *seen) {
    if (any_welded(seen))
        return PCT_CHARGE_FAULT;
    if (state == PCT_CHARGE_FAULT)
        return seen[PCT_SEEN_PLUG] == 0 ? PCT_CHARGE_START : PCT_CHARGE_FAULT;
    for (uint32_t met = 1; met <= state; met++)
        if (!holds(met, seen))
            return met - 1;
    return holds(state + 1, seen) ? state + 1 : state;
}

uint32_t plain_charge_step(uint32_t *state, const uint32_t seen[PCT_CHARGE_WORDS]) {
    if (*state > PCT_CHARGE_FAULT)
        return PCT_NOT_A_CHARGE_STATE;
    if (any_too_wide(seen))
        return PCT_COUNT_TOO_WIDE;
    *state = next_state(*state, seen);
    return PCT_DONE;
}
