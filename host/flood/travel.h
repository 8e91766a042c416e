/* travel.h: copies on their way, in a random order, until there are none. */
#ifndef TRAVEL_H
#define TRAVEL_H

#include "net.h"

/* A new net: nothing is on its way. */
void travel_open(void);
/* An order waits to be sent by the instrument of a node. */
void travel_enter(uint32_t order, uint32_t node);
/* Lets all of it travel, at seconds from this one on, which is moved. Counts
 * the copies. False where an answer is not as due, or where there are more
 * copies than so many. */
bool travel(struct random *random, uint32_t *second, uint64_t most,
            uint64_t *copies);

#endif
