/*
 * floods.h: floods and seconds to try. A history draws its floods from a pool
 * of few pairs, so that pairs come again, and its seconds from a clock of each
 * mission that mostly goes on.
 */
#ifndef FLOODS_H
#define FLOODS_H

#include "form.h"
#include "random.h"
#include "world.h"

/* A pool of so many pairs, and how many of 100 datagrams are floods of it. */
void floods_begin(struct world *world, uint32_t pairs, uint32_t of_100,
                  struct random *random);

/* Whether the next datagram is to be flooded. */
bool floods_next(const struct world *world, struct random *random);

/* Makes the form that of a flood: mostly of a pair of the pool, the source
 * where the form has one. */
void floods_form(const struct world *world, struct form *form,
                 struct random *random);

/* The second of a datagram of the world's mission, and of a sweep, which is
 * often at the edge of what it frees. */
uint32_t floods_second(struct world *world, struct random *random);
uint32_t floods_sweep(struct world *world, struct random *random);

/* Of which some free at once, and some never. Where the pool has more pairs
 * than there are places it is mostly never, so that the places fill. */
uint32_t floods_lifetime(const struct world *world, struct random *random);

#endif
