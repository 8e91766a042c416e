/*
 * random.h: a stream of numbers from a seed (splitmix64), the same on every
 * machine, so that a trace can be made again anywhere.
 *
 * The awkward case is two draws in one expression, whose order C leaves open,
 * or in one list of initial values: each draw is a statement of its own, or the
 * argument of a call that draws, so that no compiler changes what a seed means.
 */
#ifndef RANDOM_H
#define RANDOM_H

#include <stdbool.h>
#include <stdint.h>

#include "length.h"

struct random {
    uint64_t state;
};

static inline uint64_t random_number(struct random *random)
{
    uint64_t mixed = random->state += 0x9e3779b97f4a7c15u;

    mixed = (mixed ^ mixed >> 30) * 0xbf58476d1ce4e5b9u;
    mixed = (mixed ^ mixed >> 27) * 0x94d049bb133111ebu;
    return mixed ^ mixed >> 31;
}

/* 0 to most - 1. The upper half is taken, as its bits are mixed best. */
static inline uint32_t random_below(struct random *random, uint32_t most)
{
    return (uint32_t)((random_number(random) >> 32) * most >> 32);
}

static inline bool random_one_in(struct random *random, uint32_t most)
{
    return random_below(random, most) == 0;
}

static inline void random_octets(struct random *random, uint8_t *octets,
                                 uint32_t count)
{
    for (uint32_t i = 0; i < count; i++)
        octets[i] = (uint8_t)random_below(random, 256);
}

/* One of an array, drawn from `random`. */
#define PICK(array) (array)[random_below(random, LENGTH(array))]

#endif
