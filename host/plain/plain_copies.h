/*
 * The copies of a received datagram, from the ports wanted to the headers
 * written: which ports are struck out, which drop their copy, and by which
 * header each copy leaves (page 02, W-214).
 */
#ifndef PLAIN_COPIES_H
#define PLAIN_COPIES_H

#include "plain_datagram.h"

/* A copy leaves by the header that came, or by the rewritten one, which is
 * the same for all ports that have it. */
typedef struct {
    plain_set ports;           /* those wanted, then those granted */
    uint32_t capabilities;     /* of the route taken; 0 without one */
    plain_set rewritten;       /* ports that have the rewritten header */
    plain_fields fields;       /* its fields, where there is such a port */
    uint32_t rewritten_octets; /* how long it is, likewise */
} plain_copies;

/* Leaves of the ports wanted, of which there is one, those granted, and
 * settles their headers: 0, or 10, 13 or 14. */
plain_refusal plain_copies_grant(const plain_view *view,
                                 const plain_datagram *d,
                                 plain_copies *copies);

/* Each port granted takes an entry or drops its copy, and the verdict says
 * which did: 0, or 15 where none took one. */
plain_refusal plain_copies_put(const plain_view *view,
                               const plain_copies *copies, plain_entry entry,
                               plain_verdict *verdict);

/* Writes the headers of the ports that took an entry. */
void plain_copies_write(const plain_datagram *d, const plain_copies *copies,
                        const plain_verdict *verdict, const uint8_t *octets,
                        uint8_t *output);

#endif
