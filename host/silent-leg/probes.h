/* probes.h: echo requests with growing hop counts, sent on a scenario's net. */
#ifndef PROBES_H
#define PROBES_H

#include "asked.h"
#include "way.h"

/* Where they begin and where they go. */
struct route {
    uint32_t node, port, source, destination;
};

/* One of them. */
void probes_build(const struct route *route, const struct asked *asked,
                  uint32_t hops, struct datagram *request);
/* Sends them one after the other, each when all is quiet again, and takes in
 * what comes back, until the destination answers, the greatest hop count was
 * sent, or too many brought nothing new. */
void probes_send(const struct route *route, const struct asked *asked);

#endif
