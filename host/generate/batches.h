/* batches.h: a `batch` line; the seconds of its items are noted in the
 * world. */
#ifndef BATCHES_H
#define BATCHES_H

#include "shared/random.h"
#include "shared/world.h"

void history_batch(struct world *world, struct random *random);

#endif
