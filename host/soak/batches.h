/* batches.h: many datagrams for one call, drawn at random. */
#ifndef SOAK_BATCHES_H
#define SOAK_BATCHES_H

#include "call.h"
#include "shared/random.h"
#include "shared/world.h"

void soak_draw_batch(struct soak_call *call, struct world *world,
                     struct random *random);

#endif
