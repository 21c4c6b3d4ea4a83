/* For host/firmware/try_header: includes the header beside the library's and uses both. */
#include "punnetcrest_tester.h"
#include "punnetcrest.h"
uint32_t use(uint32_t *power, uint32_t *charge, uint32_t seen[PC_POWER_WORDS], uint32_t charge_seen[PCT_CHARGE_WORDS]);
uint32_t use(uint32_t *power, uint32_t *charge, uint32_t seen[PC_POWER_WORDS], uint32_t charge_seen[PCT_CHARGE_WORDS]) {
    charge_seen[PCT_SEEN_MAIN_POSITIVE] = seen[PC_SEEN_MAIN_POSITIVE];
    if (pc_power_step_by(power, seen, 95) == PC_DONE && pct_charge_step(charge, charge_seen) == PCT_DONE)
        return *charge;
    return PCT_CHARGE_FAULT;
}
