/* echoes.h: an `echo` line. */
#ifndef GENERATE_ECHOES_H
#define GENERATE_ECHOES_H

#include "shared/random.h"
#include "shared/world.h"

void history_echo(const struct world *world, struct random *random);

#endif
