/* Random numbers by seed: the same on every machine. */
#ifndef RANDOM_H
#define RANDOM_H

#include <stdbool.h>
#include <stdint.h>

extern uint64_t random_state;

static inline uint64_t random_number(void)
{
    uint64_t z = random_state += 0x9E3779B97F4A7C15u;
    z = (z ^ z >> 30) * 0xBF58476D1CE4E5B9u;
    z = (z ^ z >> 27) * 0x94D049BB133111EBu;
    return z ^ z >> 31;
}

/* 0 to bound - 1 */
static inline uint32_t below(uint32_t bound) { return (uint32_t)((random_number() >> 32) * bound >> 32); }

static inline bool one_in(uint32_t count) { return below(count) == 0; }

#endif
