/* Cases of the monitors: fault sum, power step, sleep watch. */
#include "test.h"

/* ---- The fault sum. */

enum { FAULTS = 27 };

/* The largest count of a row, from 0 for 1901 on. */
static uint32_t largest(uint32_t row) {
    return row < 14 || row == 24 ? 3 : row == 22 ? 31 : 1;
}

/* Counts where 1901 stands beside the highest level: one under, the same, one over. */
static void meet_agreement(const uint32_t counts[FAULTS]) {
    uint32_t highest = counts[24];
    for (uint32_t row = 1; row < 14; row++)
        if (counts[row] > highest)
            highest = counts[row];
    if (counts[0] + 1 - highest < 3)
        meet(FAULT_AGREEMENT, counts[0] + 1 - highest);
}

void try_fault_sum(void) {
    static const uint32_t lengths[4] = { 0, FAULTS - 1, FAULTS, FAULTS + 1 };
    uint32_t counts[40], length = !once_in(8) ? FAULTS : once_in(2) ? lengths[below(4)] : below(40);
    uint32_t row = below(FAULTS), kind = below(5), quiet = once_in(2), added = below(2), alone = below(4);
    for (uint32_t i = 0; i < 40; i++)
        counts[i] = kind == 0 || (quiet && !once_in(6)) ? 0 : below(1 + largest(i));
    if (kind < 3)
        counts[row] = kind == 0 ? alone : kind == 1 ? largest(row) + added : any_number();
    begin_case(FAULT_SUM);
    struct lent *given = lend("counts", counts, 4 * length), *sum = lend("sum", 0, 4 * PC_FAULT_WORDS);
    uint32_t library = pc_fault_sum(L(given, uint32_t), length, L(sum, uint32_t));
    uint32_t plain = plain_fault_sum(P(given, uint32_t), length, P(sum, uint32_t));
    judge(library, plain, 1);
    uint32_t length_at = place_in(lengths, 4, length);
    if (length_at < 4)
        meet(FAULT_LENGTHS, length_at);
    if (length == FAULTS && kind < 2)
        meet(kind == 0 ? FAULT_ALONE : FAULT_LIMITS, kind == 0 ? 4 * row + alone : 2 * row + added);
    if (plain == PC_DONE)
        meet_agreement(counts);
}

/* ---- The power step, of which every input is a number: the state, then what was seen, in the header's order, then the share. */

enum { STATE, NEGATIVE, PRECHARGE, POSITIVE, COMMAND, EMERGENCY_OFF, CURRENT, INSIDE, OUTSIDE, SHARE, INPUTS };
enum { OPEN = 1, CLOSED = 2, UP = 1, DOWN = 2, INVALID = 65535, KINDS = 5 };

/* Of each input, the least and the most that are allowed, numbers around those, and which kind of refusal it has. */
static const struct {
    uint32_t least, most, around[4], refusal;
} limits[INPUTS] = {
    { 0, 6, { 0, 6, 7, 0xFFFFFFFFu }, 0 },
    { OPEN, CLOSED, { 0, 1, 2, 3 }, 1 }, { OPEN, CLOSED, { 0, 1, 2, 3 }, 1 }, { OPEN, CLOSED, { 0, 1, 2, 3 }, 1 },
    { 0, 3, { 0, 3, 4, 0xFFFFFFFFu }, 2 }, { 0, 3, { 0, 3, 4, 0xFFFFFFFFu }, 2 },
    { 0, 65535, { 0, 65535, 65536, 0xFFFFFFFFu }, 3 }, { 0, 65535, { 0, 65535, 65536, 0xFFFFFFFFu }, 3 }, { 0, 65535, { 0, 65535, 65536, 0xFFFFFFFFu }, 3 },
    { 50, 100, { 49, 50, 100, 101 }, 4 },
};

static int allowed(uint32_t input, uint32_t number) {
    return limits[input].least <= number && number <= limits[input].most;
}

/* Where a damage of one to the 10 A either way would show. */
static const uint32_t currents[6] = { 0, 19900, 19901, 20099, 20100, 65535 };

/* The share of a call that names none. */
enum { NONE_NAMED = 90 };

/* Shares that are none: beside the limits, and 90 with a bit too many, which a number of 8, 16, 24 or 31 bits would lose. */
enum { WRONG_SHARES = 10 };

static const uint32_t wrong_shares[WRONG_SHARES] = { 0, 1, 49, 101, 255, 256 + 90, 65536 + 90, 0x1000000u + 90, 0x80000000u + 90, 0xFFFFFFFFu };

/* A voltage inside, more often an end of the range or beside a multiple of 20, where a share that is a multiple of 5 makes a whole
   hundred; and one outside that mostly just completes the precharge with this share or just not. */
static void any_voltages(uint32_t *inside, uint32_t *outside, uint32_t share) {
    static const uint32_t ends[5] = { 0, 1, 65533, 65534, INVALID }, around[4] = { 0, 1, 19, 20 };
    uint32_t twentieth = 20 * below(3276);
    *inside = once_in(4) ? ends[below(5)] : once_in(2) ? twentieth + around[below(4)] : below(65535);
    *outside = once_in(8) ? ends[below(5)] : once_in(8) ? below(65536) : *inside * share / 100 + below(3) - (*inside > 1);
}

/* Moves the voltage inside up until some voltage outside has a chosen distance of at most 10 from share x inside, in hundredths, where
   there is one: a share that is even, or a multiple of 5, does not have all of them. */
static void near_share(uint32_t *inside, uint32_t *outside, uint32_t share) {
    uint32_t over = below(21);
    for (int tries = 0; tries < 100 && (*inside * share + over) % 100 != 10; tries++)
        ++*inside;
    *outside = (*inside * share + over - 10) / 100;
}

/* Inputs that are allowed, with this share, but for a voltage that was moved past its limit: one time in four those of each step
   that turns on a figure. */
static void any_inputs(uint32_t inputs[INPUTS], uint32_t share) {
    uint32_t picture = below(8), step = below(4);
    inputs[STATE] = step == 0 ? PC_POWER_PRECHARGE : step == 1 ? PC_POWER_ON : below(7);
    if (step < 2)
        picture = step == 0 ? 7 : 4;
    inputs[NEGATIVE] = picture & 4 ? CLOSED : OPEN;
    inputs[PRECHARGE] = picture & 2 ? CLOSED : OPEN;
    inputs[POSITIVE] = picture & 1 ? CLOSED : OPEN;
    inputs[COMMAND] = step == 0 ? UP : step == 1 ? DOWN : below(4);
    inputs[EMERGENCY_OFF] = step < 2 && !once_in(4) ? 0 : below(4);
    inputs[CURRENT] = once_in(2) ? currents[below(6)] : once_in(2) ? 19700 + below(600) : below(65536);
    any_voltages(&inputs[INSIDE], &inputs[OUTSIDE], share);
    if (once_in(4))
        near_share(&inputs[INSIDE], &inputs[OUTSIDE], share);
    inputs[SHARE] = share;
}

/* On the step from precharge to both: by how much the voltages complete it or not, and the voltages that never do. */
static void meet_voltages(uint32_t inside, uint32_t outside, uint32_t share, int named) {
    int64_t over = 100 * (int64_t)outside - (int64_t)share * inside;
    int valid = inside != INVALID && outside != INVALID;
    const int ends[8] = {
        inside == 0 && outside == 0, inside == 0 && outside > 0 && valid, inside == 1 && outside == 0, inside == 1 && outside == 1,
        inside == 65534 && over >= 0 && valid, inside == INVALID && over >= 0 && outside != INVALID, outside == 65534 && over >= 0 && valid,
        outside == INVALID && inside > 0 && inside != INVALID,
    };
    meet_each(POWER_VOLTAGES, ends, 8);
    if (!valid || inside == 0)
        return;
    if (named && over >= -10 && over <= 10)
        meet(POWER_HUNDREDTHS, (uint32_t)(over + 10));
    if (named && over >= -100 && over < 100)
        meet(POWER_SHARES, 2 * (share - 50) + (over >= 0));
    if (!named && over >= -100 && over <= 100)
        meet(POWER_NONE, (uint32_t)(over + 100) / 10);
}

/* Every input is allowed. */
static void meet_step(const uint32_t inputs[INPUTS], int named) {
    uint32_t picture = 4 * (inputs[NEGATIVE] - OPEN) + 2 * (inputs[PRECHARGE] - OPEN) + (inputs[POSITIVE] - OPEN);
    uint32_t current_at = place_in(currents, 6, inputs[CURRENT]);
    meet(POWER_RULES, ((inputs[STATE] * 8 + picture) * 4 + inputs[COMMAND]) * 4 + inputs[EMERGENCY_OFF]);
    if (inputs[STATE] == PC_POWER_PRECHARGE && picture == 7 && inputs[COMMAND] == UP)
        meet_voltages(inputs[INSIDE], inputs[OUTSIDE], inputs[SHARE], named);
    if (inputs[STATE] == PC_POWER_ON && picture == 4 && inputs[COMMAND] == DOWN && inputs[EMERGENCY_OFF] != 1 && current_at < 6)
        meet(POWER_CURRENTS, current_at);
}

/* Each input at its limit while the others are allowed, and two refusals at once. */
static void meet_inputs(const uint32_t inputs[INPUTS], int named) {
    uint32_t wrong = 0, refused[KINDS] = { 0, 0, 0, 0, 0 };
    for (uint32_t i = 0; i < INPUTS; i++)
        if (!allowed(i, inputs[i])) {
            wrong++;
            refused[limits[i].refusal] = 1;
        }
    for (uint32_t i = 0; i < INPUTS; i++) {
        uint32_t at = place_in(limits[i].around, 4, inputs[i]);
        if (at < 4 && wrong == (allowed(i, inputs[i]) ? 0 : 1))
            meet(POWER_LIMITS, 4 * i + at);
    }
    uint32_t share_at = place_in(wrong_shares, WRONG_SHARES, inputs[SHARE]);
    if (wrong == 1 && share_at < WRONG_SHARES)
        meet(POWER_WRONG_SHARES, share_at);
    for (uint32_t late = 1; late < KINDS; late++)
        for (uint32_t early = 0; early < late; early++)
            if (refused[early] && refused[late])
                meet(POWER_ORDER, late * (late - 1) / 2 + early);
    if (wrong == 0)
        meet_step(inputs, named);
}

void try_power_step(void) {
    uint32_t inputs[INPUTS], share = 50 + below(51);
    int named = !once_in(3);
    any_inputs(inputs, named ? share : NONE_NAMED);
    for (uint32_t times = !once_in(8) ? 0 : once_in(4) ? 2 : 1; times > 0; times--) {
        uint32_t i = named && once_in(4) ? SHARE : below(named ? INPUTS : SHARE);
        inputs[i] = once_in(2) ? limits[i].around[below(4)] : i == SHARE && once_in(2) ? wrong_shares[below(WRONG_SHARES)] : any_number();
    }
    begin_case(named ? POWER_STEP_BY : POWER_STEP);
    struct lent *seen = lend("seen", &inputs[NEGATIVE], 4 * PC_POWER_WORDS), *state = lend("state", &inputs[STATE], 4);
    uint32_t library = named ? pc_power_step_by(L(state, uint32_t), L(seen, uint32_t), inputs[SHARE]) : pc_power_step(L(state, uint32_t), L(seen, uint32_t));
    uint32_t plain = named ? plain_power_step_by(P(state, uint32_t), P(seen, uint32_t), inputs[SHARE]) : plain_power_step(P(state, uint32_t), P(seen, uint32_t));
    judge(library, plain, 1);
    meet_inputs(inputs, named);
}

/* ---- The sleep watch. */

enum { AGES = 9 };

static const uint32_t ages[AGES] = { 0, 1, 9999, 10000, 10001, 0x7FFFFFFF, 0x80000000, 0x80000001, 0xFFFFFFFF };

static void meet_sleep(uint32_t last, uint32_t asleep, uint32_t now, uint32_t wake) {
    static const uint32_t states[4] = { 0, 1, 2, 0xFFFFFFFFu };
    uint32_t age_at = place_in(ages, AGES, now - last), state_at = place_in(states, 4, asleep);
    const int round[4] = { age_at == 2, age_at == 3, age_at == 5, age_at == 6 };
    if (state_at < 4)
        meet(SLEEP_STATES, state_at);
    if (age_at < AGES && asleep <= 1)
        meet(SLEEP_AGES, (2 * age_at + asleep) * 3 + (wake > 1 ? 2 : wake));
    if (now < last && asleep == 0 && wake == 0)
        meet_each(SLEEP_ROUND, round, 4);
}

static void try_sleep_watch(uint32_t last, uint32_t asleep, uint32_t now, uint32_t wake) {
    begin_case(SLEEP_WATCH);
    struct lent *last_wake = lend("last_wake", &last, 4), *state = lend("asleep", &asleep, 4);
    uint32_t library = pc_sleep_watch(L(last_wake, uint32_t), L(state, uint32_t), now, wake);
    uint32_t plain = plain_sleep_watch(P(last_wake, uint32_t), P(state, uint32_t), now, wake);
    judge(library, plain, 0);
    meet_sleep(last, asleep, now, wake);
}

static void try_sleep_start(uint32_t last, uint32_t asleep, uint32_t now) {
    begin_case(SLEEP_START);
    struct lent *last_wake = lend("last_wake", &last, 4), *state = lend("asleep", &asleep, 4);
    uint32_t library = pc_sleep_start(L(last_wake, uint32_t), L(state, uint32_t), now);
    uint32_t plain = plain_sleep_start(P(last_wake, uint32_t), P(state, uint32_t), now);
    judge(library, plain, 0);
}

void try_sleep(void) {
    uint32_t last = any_number(), now = once_in(8) ? any_number() : last + ages[below(AGES)];
    uint32_t asleep = once_in(20) ? any_number() : below(once_in(20) ? 3 : 2), wake = once_in(2) ? 0 : once_in(2) ? 1 : any_number();
    if (once_in(20))
        try_sleep_start(last, asleep, now);
    else
        try_sleep_watch(last, asleep, now, wake);
}
