/* messages.h: echo messages to read, and numbers and data to build them of. */
#ifndef SOAK_MESSAGES_H
#define SOAK_MESSAGES_H

#include "call.h"
#include "shared/random.h"
#include "shared/world.h"

void soak_draw_message(struct soak_call *call, struct random *random);
void soak_draw_build(struct soak_call *call, const struct world *world,
                     struct random *random);

#endif
