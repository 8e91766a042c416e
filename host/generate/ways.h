/*
 * ways.h: how a setting is spoiled: in which of its ways, each a bit of a set,
 * and by a number beyond those that there are.
 */
#ifndef HISTORY_WAYS_H
#define HISTORY_WAYS_H

#include <stdint.h>

#include "shared/random.h"

/* One or two of so many ways, as a set. */
static inline uint32_t ways(uint32_t count, struct random *random)
{
    uint32_t chosen = 1u << random_below(random, count);

    if (random_one_in(random, 2))
        chosen |= 1u << random_below(random, count);
    return chosen;
}

/* The first number beyond the count, or one far beyond it. */
static inline uint32_t beyond(uint32_t count, struct random *random)
{
    return random_one_in(random, 2) ? count : 0xffffffffu;
}

/* A number that is not ones and then zeros. */
static inline uint32_t no_mask(struct random *random)
{
    static const uint32_t BAD[] = {0x00ffff00, 0xffff00ff, 0xff00ff00,
                                   0x00000001, 0xfffffffd, 0x7fffff00};

    return PICK(BAD);
}

#endif
