/*
 * due.h: what is due by the rules, from the links alone: whom an order reaches,
 * who sends it on and who keeps its pair.
 */
#ifndef DUE_H
#define DUE_H

#include "orders.h"

/* Of each node and order, in the flood that is to begin. */
struct due {
    bool reached, sends_on;
    bool keeps; /* before the flood, and since */
};

extern struct due due[MOST_NODES][MOST_ORDERS];

/* No node keeps a pair. */
void due_forget(void);
/* The order enters by the instrument of a node. Answers how many copies are
 * made of it, those for instruments included. */
uint64_t due_flood(uint32_t order, uint32_t node);
/* The pairs that a node holds in the end. */
uint32_t due_pairs(uint32_t node);

#endif
