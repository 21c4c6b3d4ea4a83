/* Fault sum, power monitor, sleep watch. */
#include "plain.h"

/* ---- The fault sum, over rows 1 to 27 of table 19. */

enum { FAULTS = 27 };

static int is_level(unsigned row) {
    return (row >= 2 && row <= 14) || row == 25;
}

static int is_one_bit_fault(unsigned row) {
    return (row >= 15 && row <= 21) || row == 24 || row == 26 || row == 27;
}

static uint32_t largest(unsigned row) {
    return row <= 14 || row == 25 ? 3 : row == 23 ? 31 : 1;
}

uint32_t plain_fault_sum(const uint32_t *counts, uint64_t counts_length, uint32_t sum[PC_FAULT_WORDS]) {
    uint32_t highest = 0, standing[4] = { 0, 0, 0, 0 }, set = 0;
    if (counts_length != FAULTS)
        return PC_NOT_27_FAULTS;
    for (unsigned row = 1; row <= FAULTS; row++)
        if (counts[row - 1] > largest(row))
            return PC_FAULT_TOO_WIDE;
    for (unsigned row = 1; row <= FAULTS; row++) {
        uint32_t count = counts[row - 1];
        if (is_level(row)) {
            standing[count]++;
            if (count > highest)
                highest = count;
        } else if (is_one_bit_fault(row)) {
            set += count;
        }
    }
    sum[PC_FAULT_HIGHEST] = highest;
    sum[PC_FAULT_AT_1] = standing[1];
    sum[PC_FAULT_AT_2] = standing[2];
    sum[PC_FAULT_AT_3] = standing[3];
    sum[PC_FAULT_SET] = set;
    sum[PC_FAULT_EMERGENCY] = counts[1] == 3 || counts[2] == 3 || counts[4] == 3 || counts[6] == 3 || counts[7] == 3 || counts[20] == 1;
    sum[PC_FAULT_AGREES] = counts[0] == highest;
    return PC_DONE;
}

/* ---- The power monitor. */

enum { OPEN = 1, CLOSED = 2, INVALID_VOLTAGE = 65535 };
enum { UP = 1, DOWN = 2, URGENT_DOWN = 3 };

static int open_or_closed(uint32_t relay) {
    return relay == OPEN || relay == CLOSED;
}

static int shows(const uint32_t *seen, uint32_t main_negative, uint32_t precharge, uint32_t main_positive) {
    return seen[PC_SEEN_MAIN_NEGATIVE] == main_negative && seen[PC_SEEN_PRECHARGE] == precharge && seen[PC_SEEN_MAIN_POSITIVE] == main_positive;
}

static int shows_picture_of(uint32_t state, const uint32_t *seen) {
    switch (state) {
    case PC_POWER_OFF:
        return shows(seen, OPEN, OPEN, OPEN);
    case PC_POWER_RISING:
    case PC_POWER_FALLING:
        return shows(seen, CLOSED, OPEN, OPEN);
    case PC_POWER_PRECHARGE:
        return shows(seen, CLOSED, CLOSED, OPEN);
    case PC_POWER_BOTH:
        return shows(seen, CLOSED, CLOSED, CLOSED);
    case PC_POWER_ON:
        return shows(seen, CLOSED, OPEN, CLOSED);
    default:
        return 0;
    }
}

static int precharge_complete(const uint32_t *seen, uint32_t share) {
    uint32_t inside = seen[PC_SEEN_INSIDE], outside = seen[PC_SEEN_OUTSIDE];
    return inside != INVALID_VOLTAGE && outside != INVALID_VOLTAGE && inside > 0 && 100 * outside >= share * inside;
}

static int under_10_amps(const uint32_t *seen) {
    return seen[PC_SEEN_CURRENT] >= 19901 && seen[PC_SEEN_CURRENT] <= 20099;
}

/* Rules 3 to 5: the step to a state that shows, where it is allowed; else fault. */
static uint32_t step_from(uint32_t state, const uint32_t *seen, uint32_t share, int urgent) {
    int up = seen[PC_SEEN_COMMAND] == UP, down = seen[PC_SEEN_COMMAND] == DOWN;
    switch (state) {
    case PC_POWER_OFF:
        if (up && shows_picture_of(PC_POWER_RISING, seen))
            return PC_POWER_RISING;
        break;
    case PC_POWER_RISING:
        if (up && shows_picture_of(PC_POWER_PRECHARGE, seen))
            return PC_POWER_PRECHARGE;
        if (down && shows_picture_of(PC_POWER_OFF, seen))
            return PC_POWER_OFF;
        break;
    case PC_POWER_PRECHARGE:
        if (up && precharge_complete(seen, share) && shows_picture_of(PC_POWER_BOTH, seen))
            return PC_POWER_BOTH;
        if ((down || urgent) && shows_picture_of(PC_POWER_FALLING, seen))
            return PC_POWER_FALLING;
        break;
    case PC_POWER_BOTH:
        if (shows_picture_of(PC_POWER_ON, seen))
            return PC_POWER_ON;
        break;
    case PC_POWER_ON:
        if ((urgent || (down && under_10_amps(seen))) && shows_picture_of(PC_POWER_FALLING, seen))
            return PC_POWER_FALLING;
        break;
    case PC_POWER_FALLING:
        if (shows_picture_of(PC_POWER_OFF, seen))
            return PC_POWER_OFF;
        break;
    }
    return PC_POWER_FAULT;
}

static uint32_t next_state(uint32_t state, const uint32_t *seen, uint32_t share) {
    uint32_t command = seen[PC_SEEN_COMMAND];
    int urgent = command == URGENT_DOWN || seen[PC_SEEN_EMERGENCY_OFF] == 1;
    int all_open = shows(seen, OPEN, OPEN, OPEN);
    if (state == PC_POWER_FAULT)
        return all_open && (command == 0 || command == DOWN) ? PC_POWER_OFF : PC_POWER_FAULT;
    if (shows_picture_of(state, seen))
        return state;
    if (urgent && all_open)
        return PC_POWER_OFF;
    return step_from(state, seen, share, urgent);
}

uint32_t plain_power_step_by(uint32_t *state, const uint32_t seen[PC_POWER_WORDS], uint32_t share) {
    if (*state > PC_POWER_FAULT)
        return PC_NOT_A_POWER_STATE;
    if (!open_or_closed(seen[PC_SEEN_MAIN_NEGATIVE]) || !open_or_closed(seen[PC_SEEN_PRECHARGE]) || !open_or_closed(seen[PC_SEEN_MAIN_POSITIVE]))
        return PC_RELAY_COUNT;
    if (seen[PC_SEEN_COMMAND] > 3 || seen[PC_SEEN_EMERGENCY_OFF] > 3)
        return PC_COMMAND_COUNT;
    if (seen[PC_SEEN_CURRENT] > 65535 || seen[PC_SEEN_INSIDE] > 65535 || seen[PC_SEEN_OUTSIDE] > 65535)
        return PC_READING_COUNT;
    if (share < 50 || share > 100)
        return PC_SHARE_OUT_OF_RANGE;
    *state = next_state(*state, seen, share);
    return PC_DONE;
}

uint32_t plain_power_step(uint32_t *state, const uint32_t seen[PC_POWER_WORDS]) {
    return plain_power_step_by(state, seen, 90);
}

/* ---- The sleep watch. */

uint32_t plain_sleep_start(uint32_t *last_wake, uint32_t *asleep, uint32_t now) {
    *last_wake = now;
    *asleep = 0;
    return PC_DONE;
}

uint32_t plain_sleep_watch(uint32_t *last_wake, uint32_t *asleep, uint32_t now, uint32_t wake) {
    uint32_t age = now - *last_wake;
    if (*asleep > 1)
        return PC_NOT_A_SLEEP_STATE;
    if (!*asleep && age >= (uint32_t)1 << 31)
        return PC_CLOCK_WENT_BACK;
    if (wake)
        return plain_sleep_start(last_wake, asleep, now);
    if (age >= 10000)
        *asleep = 1;
    return PC_DONE;
}
