/* answers.h: the echo requests that are delivered to a node are answered. */
#ifndef ANSWERS_H
#define ANSWERS_H

#include "nodes.h"

/* What came by the port, and is an echo request. */
void answer_echo(uint32_t node, uint32_t port, const struct datagram *came);

#endif
