/* draw.h: calls drawn at random, for the world as it stands, whose clock goes
 * on with those that have a second. */
#ifndef DRAW_H
#define DRAW_H

#include "call.h"
#include "shared/random.h"
#include "shared/world.h"

/* How many there are of what the call's first number names. */
uint32_t soak_places(enum call which, const struct world *world);

void soak_draw_call(struct soak_call *call, enum call which,
                    struct world *world, struct random *random);
/* A good setting. */
void soak_draw_setting(struct soak_call *call, enum call which,
                       struct world *world, struct random *random);
/* A record as anyone may have written it: good, the same entry as another
 * place's, or with an odd number in it. */
void soak_draw_record(hj_record *record, const struct world *world,
                      struct random *random);
/* The words of a pair that may come, but for the second. */
void soak_draw_pair(uint32_t *words, const struct world *world,
                    struct random *random);
/* Notes a setting that was taken, or a sweep. */
void soak_note(const struct soak_call *call, struct world *world);

#endif
