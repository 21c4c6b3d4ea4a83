/* The float unit, which is off on the bare AArch64 (start.S), is on while pc_dash runs, and while its plain twin does: the two that ask for
   it. The linker puts these functions in their place (--wrap), so every other call is still stopped where it uses a float register. */
#include <stdint.h>

typedef uint32_t dash(uint32_t number, uint32_t raw, uint32_t *class_code, double *reading);
dash __real_pc_dash, __wrap_pc_dash, __real_plain_dash __attribute__((weak)), __wrap_plain_dash;

static uint32_t with_float_unit(dash *call, uint32_t number, uint32_t raw, uint32_t *class_code, double *reading) {
    __asm__ volatile("msr cpacr_el1, %0\n isb" : : "r"(3ul << 20) : "memory");
    uint32_t refusal = call(number, raw, class_code, reading);
    __asm__ volatile("msr cpacr_el1, xzr\n isb" : : : "memory");
    return refusal;
}

uint32_t __wrap_pc_dash(uint32_t number, uint32_t raw, uint32_t *class_code, double *reading) {
    return with_float_unit(__real_pc_dash, number, raw, class_code, reading);
}

uint32_t __wrap_plain_dash(uint32_t number, uint32_t raw, uint32_t *class_code, double *reading) {
    return with_float_unit(__real_plain_dash, number, raw, class_code, reading);
}
