/* net.h: datagrams on their way between the nodes. */
#ifndef NET_H
#define NET_H

#include "nodes.h"

/* False where no more of the node's own can stand before the wire. */
bool net_send(uint32_t node, uint32_t port, const struct datagram *datagram);
/* One take of a port whose wire is free, held or not; a refused one is told. */
void net_take(uint32_t node, uint32_t port);
/* Each wire that is free, and not held, begins with what is next on it. */
void net_start_wires(void);
/* As long as it takes. */
#define EVER UINT64_MAX
/* The next arrival, and those at the same moment that are heard with it, up to
 * so many; or the next loss. Answers how many, 0 for none up to that moment. */
uint32_t net_step(uint64_t latest, uint32_t most);

#endif
