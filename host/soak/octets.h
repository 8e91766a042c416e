/* octets.h: a datagram to lend, how it arrives and its octets, and fields to
 * build a header. */
#ifndef OCTETS_H
#define OCTETS_H

#include "call.h"
#include "shared/random.h"
#include "shared/world.h"

/* The port, the slot and the second. */
void soak_draw_arrival(struct soak_call *call, struct world *world,
                       struct random *random);
void soak_draw_octets(struct soak_call *call, const struct world *world,
                      struct random *random);
void soak_draw_fields(struct soak_call *call, const struct world *world,
                      struct random *random);

#endif
