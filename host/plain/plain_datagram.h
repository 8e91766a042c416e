/*
 * What is known of a datagram that came, and whether it is for this node: what
 * receiving it and answering its echo request both ask.
 */
#ifndef PLAIN_DATAGRAM_H
#define PLAIN_DATAGRAM_H

#include "plain_header.h"
#include "plain_relay.h"

/* What is known of a datagram once no check refuses it. */
typedef struct {
    plain_header header;
    uint32_t arrival;
    uint32_t second; /* at which it came, where it is received */
    bool flooded;
    bool by_path;
    plain_address destination;     /* where not by path; as four octets */
    plain_address source;          /* likewise */
    plain_path path;               /* where by path */
    plain_class class;             /* of the destination, else invalid */
    bool for_this_node;            /* a port's address, limited broadcast */
    bool our_broadcast;
    bool subscribed;               /* multicast, on the arrival port */
    const plain_group *group;      /* where multicast */
    const plain_path_place *place; /* where by path */
} plain_datagram;

/* The first three octets of an address. */
static inline uint32_t plain_domain(plain_address address)
{
    return address.bits & 0xffffff00;
}

/* The refusals 1 to 8 and 28, or 0; with 0 all is known but for the second,
 * which is the caller's to fill in. The arrival port is the mission's. Counts
 * nothing. */
plain_refusal plain_datagram_judge(const plain_view *view, uint32_t arrival,
                                   const uint8_t *octets, size_t count,
                                   plain_datagram *d);

/* No, delivered or 26. */
uint32_t plain_local_half(const plain_datagram *d);

#endif
