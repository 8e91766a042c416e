/* slots.h: the datagrams that a node keeps for a mission, by slot. */
#ifndef SLOTS_H
#define SLOTS_H

#include "nodes.h"

uint16_t slots_free(const struct node *node, uint32_t mission);
/* By the answer to what is kept: counts what each port took or dropped, and how
 * many entries wait with the slot. */
void slots_count(struct node *node, struct kept *kept);

#endif
