/*
 * arrivals.h: datagrams that arrive, and a `receive` line of one. The second is
 * noted in the world.
 */
#ifndef ARRIVALS_H
#define ARRIVALS_H

#include "shared/datagram.h"
#include "shared/random.h"
#include "shared/world.h"

struct arrival {
    uint32_t port, slot, second;
    struct datagram datagram;
};

/* The port, the slot and the second of a datagram. */
void arrival_begin(struct arrival *arrival, struct world *world,
                   struct random *random);

/* The form of its header. */
void arrival_form(struct arrival *arrival, const struct world *world,
                  struct random *random);

/* The datagram of its form, which came by that port. One in eight is
 * spoiled. */
void arrival_write(struct arrival *arrival, const struct world *world,
                   struct random *random);

void history_receive(struct world *world, struct random *random);

#endif
