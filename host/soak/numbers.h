/* numbers.h: numbers that are apt to be mistaken for others. */
#ifndef NUMBERS_H
#define NUMBERS_H

#include "shared/random.h"
#include "shared/world.h"

/* A number that often means something somewhere. */
uint32_t soak_odd_number(const struct world *world, struct random *random);

/* An address at the edges of the classes. */
uint32_t soak_draw_edge(struct random *random);

#endif
