/* For host/firmware/try_header: includes the header twice and uses its call and its enums. */
#include "punnetcrest_tester.h"
#include "punnetcrest_tester.h"
uint32_t use(uint32_t *state, uint32_t seen[PCT_CHARGE_WORDS]);
uint32_t use(uint32_t *state, uint32_t seen[PCT_CHARGE_WORDS]) {
    seen[PCT_SEEN_PLUG] = 1;
    if (pct_charge_step(state, seen) == PCT_DONE)
        return *state;
    return PCT_CHARGE_START;
}
