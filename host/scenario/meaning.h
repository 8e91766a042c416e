/*
 * meaning.h: what the addresses of a datagram name, and whether each copy names
 * the same.
 */
#ifndef MEANING_H
#define MEANING_H

#include "nodes.h"

/* The fields as they are read at a port, the addresses as four octets. */
hj_fields meaning_at(const struct node *node, uint32_t port,
                     const struct datagram *datagram);
/* What came by the port is kept; each copy that was taken is held to it. */
void meaning_hold(uint32_t node, uint32_t port, const struct kept *kept);
/* A reply is held to the request that came by the port. */
void meaning_hold_reply(uint32_t node, uint32_t port,
                        const struct datagram *request,
                        const struct kept *reply);
/* Copies and replies that name what they have to; those, and all others. */
uint32_t meaning_same(void);
uint32_t meaning_count(void);

#endif
