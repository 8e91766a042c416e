/*
 * routes.h: `set_route` lines and the lines that write the list unjudged. A
 * good setting is noted in the world as what was asked for, and so is a record,
 * so that others may hold the same entry; a setting that is to be refused is
 * not.
 */
#ifndef ROUTES_H
#define ROUTES_H

#include "shared/random.h"
#include "shared/world.h"

/* Of the routes that a history writes, the one of this number. */
void history_set_route(struct world *world, uint32_t which,
                       struct random *random);
void history_refused_route(struct world *world, struct random *random);

/* A record as it stands: good, or such as the rules refuse, or the same entry
 * as another place has. */
void history_record(struct world *world, struct random *random);

/* A list of so many empty records. */
void history_records(struct world *world, uint32_t count,
                     struct random *random);

#endif
