/*
 * way.h: the way that the settings of a scenario foretell, and what each relay
 * on it would answer.
 */
#ifndef WAY_H
#define WAY_H

#include "legs.h"
#include "scenario/nodes.h"

/* One leg, and what the relay at its end would say to what comes there. */
struct step {
    uint32_t node, port, peer, peer_port;
    uint32_t octets;    /* of what goes over it */
    hj_verdict verdict; /* hj_receive's */
    hj_verdict echo;    /* hj_echo's */
    struct datagram reply; /* that it would send; no octets where none */
};

struct way {
    struct step steps[MOST_LEGS + 1]; /* from 1 on */
    uint32_t count;
};

/* The port of a set that has one. */
uint32_t way_port(uint32_t set);
/* Follows a request or a reply that a node sends by a port, as far as the
 * relays send it on over links, at most MOST_LEGS. Nothing moves. */
void way_find(uint32_t node, uint32_t port, const struct datagram *sent,
              struct way *way);

#endif
