/* The cases by chance: walks of observations, on lent memory that ends at a closed stretch (host/lent.h). */
#include "../host/lent.h"
#include "test.h"

enum { LENGTH = 32, WELDED = 3 };  /* observations of a walk; the condition that is about welded relays */

static struct chance chance;
static struct lent seen_block, state_block;

static uint32_t below(uint32_t bound) {
    return chance_below(&chance, bound);
}

static int once_in(uint32_t times) {
    return one_in(&chance, times);
}

/* A value of the count that is good, or one that is not; any that fits. */
static uint32_t value(uint32_t i, uint32_t good) {
    uint32_t drawn;
    do
        drawn = below(1u << counts[i].bits);
    while ((counts[i].good >> drawn & 1) != good);
    return drawn;
}

static uint32_t any_value(uint32_t i) {
    return below(1u << counts[i].bits);
}

/* A value over the count's width: by a few of the bits next to it, or any with one over it. */
static uint32_t wide_value(uint32_t i) {
    uint32_t bits = counts[i].bits, fitting = any_value(i), over = below(32 - bits), any = (uint32_t)chance_word(&chance);
    return once_in(2) ? (1 + below(7)) << bits | fitting : any >> below(32 - bits) | (uint32_t)1 << (bits + over);
}

/* Makes a count too wide; now and then another one too, by the same bits or by others. Else, more often than not, another relay is welded. */
static void widen(uint32_t *seen, uint32_t i) {
    uint32_t other = (i + 1 + below(PCT_CHARGE_WORDS - 1)) % PCT_CHARGE_WORDS, relay;
    do
        relay = PCT_SEEN_MAIN_POSITIVE_WELDED + below(4);
    while (relay == i);
    seen[i] = wide_value(i);
    if (once_in(4))
        seen[other] = once_in(2) ? seen[i] : wide_value(other);
    else if (!once_in(3))
        seen[relay] = 1;
}

static uint32_t no_state(void) {
    uint32_t low = below(STATES);
    return once_in(2) ? no_states[below(NO_STATES)] : (uint32_t)1 << (STATE_BITS + below(32 - STATE_BITS)) | low;
}

/* An observation that mostly moves on: what was met holds, and the next condition; no relay is welded. Now and then a count is not good, a
   relay is welded, the plug is pulled, a count is too wide; a state is none. */
static void draw(struct step *given) {
    uint32_t i = below(PCT_CHARGE_WORDS), *seen = given->seen;
    for (uint32_t k = 0; k < PCT_CHARGE_WORDS; k++)
        seen[k] = counts[k].condition <= given->state + 1 || counts[k].condition == WELDED || once_in(2) ? value(k, 1) : any_value(k);
    if (once_in(4))
        seen[i] = value(i, 0);
    if (once_in(8))
        seen[PCT_SEEN_MAIN_POSITIVE_WELDED + below(4)] = 1;
    if (given->state == PCT_CHARGE_FAULT && once_in(2))
        seen[PCT_SEEN_PLUG] = once_in(2) ? 0 : any_value(PCT_SEEN_PLUG);
    if (once_in(5))
        widen(seen, i);
    if (once_in(16))
        given->state = no_state();
}

static void judge_block(const struct lent *block, int must_stay) {
    const char *fault = lent_fault(block, must_stay);
    if (fault)
        fail_case(fault, block->name);
}

static uint32_t compare(const struct step *given) {
    begin_case(given);
    lent_out(&seen_block, &chance, "seen", given->seen, sizeof given->seen, 0);
    lent_out(&state_block, &chance, "state", &given->state, sizeof given->state, 0);
    uint32_t library = pct_charge_step(lent_library(&state_block), lent_library(&seen_block));
    uint32_t plain = plain_charge_step(lent_plain(&state_block), lent_plain(&seen_block));
    judge(library, plain);
    judge_block(&seen_block, 1);
    judge_block(&state_block, library != PCT_DONE);
    uint32_t after = *(const uint32_t *)lent_library(&state_block);
    if (!meet_edges(BY_CHANCE, given, library, after))
        fail_case("the rule has no such step", "");
    return after;
}

/* From any state, and now and then from another one on. */
void try_walk(uint64_t seed) {
    struct step given;
    chance.state = seed;
    given.state = below(STATES);
    for (int i = 0; i < LENGTH; i++) {
        draw(&given);
        given.state = compare(&given);
        if (given.state >= STATES || once_in(8))
            given.state = below(STATES);
    }
}

/* The machine stopped a call in a closed stretch, or elsewhere. */
static void stopped(const void *address) {
    const struct lent *const blocks[2] = { &seen_block, &state_block };
    for (int i = 0; i < 2; i++) {
        const char *trespass = lent_trespass(blocks[i], address);
        if (trespass)
            fail_case(trespass, blocks[i]->name);
    }
    fail_case("a read or write outside all that was lent", "");
}

int open_walks(void) {
    return lent_open(&seen_block) && lent_open(&state_block) && closed_watch(stopped);
}
