/*
 * entries.h: `set_group` and `set_path` lines. A good setting is noted in the
 * world as what was asked for; one that is to be refused is not.
 */
#ifndef ENTRIES_H
#define ENTRIES_H

#include "shared/random.h"
#include "shared/world.h"

void history_set_group(struct world *world, uint32_t place,
                       struct random *random);
void history_refused_group(struct world *world, struct random *random);
void history_set_path(struct world *world, uint32_t place,
                      struct random *random);
void history_refused_path(struct world *world, struct random *random);

#endif
