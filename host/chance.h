/* Numbers by chance, the same from run to run for the same seed. */
#ifndef CHANCE_H
#define CHANCE_H

#include <stddef.h>
#include <stdint.h>
#include <string.h>

struct chance {
    uint64_t state;
};

static inline uint64_t chance_word(struct chance *c) {
    uint64_t z = c->state += 0x9E3779B97F4A7C15u;
    z = (z ^ (z >> 30)) * 0xBF58476D1CE4E5B9u;
    z = (z ^ (z >> 27)) * 0x94D049BB133111EBu;
    return z ^ (z >> 31);
}

/* One of 0 to below - 1. */
static inline uint32_t chance_below(struct chance *c, uint32_t below) {
    return (uint32_t)(((chance_word(c) >> 32) * below) >> 32);
}

/* Whether something happens that happens once in so many times. */
static inline int one_in(struct chance *c, uint32_t times) {
    return chance_below(c, times) == 0;
}

static inline void chance_bytes(struct chance *c, void *bytes, size_t count) {
    uint8_t *at = bytes, *end = at + count;
    for (uint64_t word; at < end; at += sizeof word) {
        word = chance_word(c);
        if ((size_t)(end - at) < sizeof word) {
            memcpy(at, &word, (size_t)(end - at));
            return;
        }
        memcpy(at, &word, sizeof word);
    }
}

#endif
