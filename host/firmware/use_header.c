/* For host/firmware/try_header: includes the header twice and uses calls, an enum and a macro. */
#include "punnetcrest.h"
#include "punnetcrest.h"
uint32_t use(uint32_t *state, uint32_t seen[PC_POWER_WORDS], uint32_t place);
uint32_t use(uint32_t *state, uint32_t seen[PC_POWER_WORDS], uint32_t place) {
    seen[PC_SEEN_INSIDE] = PC_BUS(PC_PLACE(1, PC_IDENTIFIER(place)));
    if (pc_power_step(state, seen) == PC_DONE && pc_power_step_by(state, seen, 95) == PC_DONE)
        return *state;
    return PC_POWER_START;
}
