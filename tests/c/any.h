/* Numbers in no order, the same ones in every run. */
#ifndef ANY_H
#define ANY_H

#include <stdint.h>

static inline uint32_t any(uint32_t below)
{
    static uint32_t state = 43;
    state ^= state << 13;
    state ^= state >> 17;
    state ^= state << 5;
    return state % below;
}

#endif
