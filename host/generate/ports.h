/*
 * ports.h: `set_port` lines, of the mission whose calls are drawn. A good
 * setting is noted in the world; one that is to be refused is not.
 */
#ifndef PORTS_H
#define PORTS_H

#include "shared/random.h"
#include "shared/world.h"

void history_set_port(struct world *world, uint32_t port,
                      struct random *random);
void history_refused_port(struct world *world, struct random *random);

#endif
