/* Closed memory by the memory protection unit of a Cortex-M7: the board's second memory in stripes, of which every other one is closed.
   A region of the unit has eight stripes, each of which can be left out of it. */
#include "closed.h"
#include "start.h"

const int closed_by_machine = 1;

enum { STRIPES = 49, OF_A_REGION = 8, MEMORY = 0x60000000 };

#define REGISTER(address) (*(volatile uint32_t *)(address))
#define MPU_TYPE REGISTER(0xE000ED90)
#define MPU_CTRL REGISTER(0xE000ED94)
#define MPU_RNR REGISTER(0xE000ED98)
#define MPU_RBAR REGISTER(0xE000ED9C)
#define MPU_RASR REGISTER(0xE000EDA0)
#define SHCSR REGISTER(0xE000ED24)

uint8_t *closed_between(void) {
    static uint32_t given;
    if (2 * given + 2 > STRIPES - 1)
        return 0;
    given++;
    return (uint8_t *)(MEMORY + (2 * given - 1) * CLOSED_ROOM);
}

/* No access to stripes 0, 2, 4 and 6 of each region; the others, and all other memory, as without the unit. */
int closed_watch(void (*stopped)(const void *address)) {
    uint32_t regions = (STRIPES + OF_A_REGION - 1) / OF_A_REGION;
    if ((MPU_TYPE >> 8 & 255) < regions)
        return 0;
    for (uint32_t i = 0; i < regions; i++) {
        MPU_RNR = i;
        MPU_RBAR = MEMORY + i * OF_A_REGION * CLOSED_ROOM;
        MPU_RASR = 1u << 28 /* nothing there is run */ | 0xAAu << 8 /* stripes left out */ | 18u << 1 /* 2 to the 19 bytes */ | 1u;
    }
    when_closed = stopped;
    SHCSR |= 1u << 16;                    /* a fault of its own for it */
    MPU_CTRL = 1u << 2 | 1u;
    __asm__ volatile("dsb\n isb" : : : "memory");
    return 1;
}
