/*
 * copies.h: how many copies of a flooded order the wires carry, beside how many
 * they would carry without the pairs.
 */
#ifndef COPIES_H
#define COPIES_H

#include "nodes.h"

/* The word `copies`: reads the rest of its line. */
void copies(void);

/* A scene begins: no order has been flooded in it. */
void copies_scene(void);
/* A node sends a datagram by its port; one that is not flooded is passed over.
 */
void copies_send(uint32_t node, uint32_t port, const struct datagram *sent);
/* A datagram goes out on a wire. */
void copies_start(const struct datagram *flying);

#endif
