/* Numbers from a seed, by 32-bit arithmetic alone, so that every machine has the same. */
#ifndef RANDOM_H
#define RANDOM_H

#include <stdint.h>

static uint32_t random_state = 1;

static inline uint32_t mixed(uint32_t x) {
    x ^= x >> 16;
    x *= 0x7feb352du;
    x ^= x >> 15;
    x *= 0x846ca68bu;
    return x ^ x >> 16;
}

static inline void seed(uint32_t a, uint32_t b, uint32_t c) {
    random_state = mixed(mixed(mixed(a) + b) + c) | 1u;
}

static inline uint32_t bits(void) {
    random_state ^= random_state << 13;
    random_state ^= random_state >> 17;
    random_state ^= random_state << 5;
    return mixed(random_state);
}

/* One of the numbers 0 to count - 1. */
static inline uint32_t below(uint32_t count) {
    return bits() % count;
}

static inline uint32_t between(uint32_t low, uint32_t high) {
    return low + below(high - low + 1);
}

/* True once in so many times. */
static inline int once_in(uint32_t times) {
    return below(times) == 0;
}

#endif
