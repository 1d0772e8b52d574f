/* Numbers that look random, the same in every run. */
#ifndef RANDOM_H
#define RANDOM_H

#include <stdint.h>

static inline uint32_t any(uint64_t *seed)
{
    *seed ^= *seed << 13;
    *seed ^= *seed >> 7;
    *seed ^= *seed << 17;
    return (uint32_t)(*seed >> 32);
}

static inline uint32_t below(uint64_t *seed, uint32_t bound)
{
    return any(seed) % bound;
}

#endif
