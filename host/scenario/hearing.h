/* hearing.h: what arrives at a node is heard by its relay, and told. */
#ifndef HEARING_H
#define HEARING_H

#include "nodes.h"

/* What arrives at one moment at one node for one mission, the first first. A
 * port brings one at most. */
struct arrivals {
    uint32_t node, mission, count;
    hj_arrival how[HJ_PORTS]; /* the slot is found when it is heard */
    struct datagram came[HJ_PORTS];
};

/* Only the last of them may be an echo request. */
void hear(struct arrivals *arrivals);

/* From now on what arrives together is heard in one call (W-201), and not in a
 * call for each. What is told is the same. */
void hearing_in_batches(void);
/* How many batches there were of so many items, 1 to HJ_PORTS. */
uint32_t hearing_batches(uint32_t items);

#endif
