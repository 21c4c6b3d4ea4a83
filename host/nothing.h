/* Functions in the place of the calls that return at once: what host/bench.c takes off for the loop around the calls. */
#ifndef NOTHING_H
#define NOTHING_H

#include <stdint.h>

static uint32_t no_book_read(const uint8_t *a, uint64_t b, uint32_t *c, uint32_t *d) {
    (void)a, (void)b, (void)c, (void)d;
    return 0;
}
static uint32_t no_book_write(const uint32_t *a, uint8_t *b, uint64_t c, uint32_t *d) {
    (void)a, (void)b, (void)c, (void)d;
    return 0;
}
static uint32_t no_class(uint32_t a, uint32_t b, uint32_t *c, int64_t *d) {
    (void)a, (void)b, (void)c, (void)d;
    return 0;
}
static uint32_t no_dash(uint32_t a, uint32_t b, uint32_t *c, double *d) {
    (void)a, (void)b, (void)c, (void)d;
    return 0;
}
static uint32_t no_frame_read(const uint32_t *a, uint32_t b, const uint8_t *c, uint64_t d, uint32_t *e, uint64_t f, uint8_t *g, uint64_t h, int64_t *i, uint64_t j, uint32_t *k) {
    (void)a, (void)b, (void)c, (void)d, (void)e, (void)f, (void)g, (void)h, (void)i, (void)j, (void)k;
    return 0;
}
static uint32_t no_frame_pack(const uint32_t *a, uint32_t b, const uint32_t *c, uint64_t d, uint8_t *e, uint64_t f) {
    (void)a, (void)b, (void)c, (void)d, (void)e, (void)f;
    return 0;
}
static uint32_t no_spread(const uint32_t *a, uint32_t b, uint32_t c, uint32_t *d, uint64_t e, uint32_t *f) {
    (void)a, (void)b, (void)c, (void)d, (void)e, (void)f;
    return 0;
}
static uint32_t no_fault_sum(const uint32_t *a, uint64_t b, uint32_t *c) {
    (void)a, (void)b, (void)c;
    return 0;
}
static uint32_t no_power_step(uint32_t *a, const uint32_t *b) {
    (void)a, (void)b;
    return 0;
}
static uint32_t no_power_step_by(uint32_t *a, const uint32_t *b, uint32_t c) {
    (void)a, (void)b, (void)c;
    return 0;
}
static uint32_t no_sleep_watch(uint32_t *a, uint32_t *b, uint32_t c, uint32_t d) {
    (void)a, (void)b, (void)c, (void)d;
    return 0;
}

#endif
