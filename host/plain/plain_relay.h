/*
 * The relay of page 01 as two missions share it (page 02, W-208). Three things
 * are kept by the caller: the operator's board, the state of each mission, and
 * the list of routes. A mission's call sees a view: the board, its own state
 * and the list, the ports of the other mission not set up and its routes not
 * there.
 *
 * An empty group or path place is all zeros, and needs no flag to say so: 0 is
 * no multicast address and no path address. A record of the list has a flag,
 * since whoever writes the list may write anything.
 */
#ifndef PLAIN_RELAY_H
#define PLAIN_RELAY_H

#include <stdbool.h>
#include <stddef.h>
#include <stdint.h>

#include "plain_address.h"
#include "plain_counters.h"
#include "plain_numbers.h"
#include "plain_queue.h"

/* A set of ports: port p is 2^p. */
typedef struct { uint32_t bits; } plain_set;

typedef enum {
    PLAIN_UP = 1,
    PLAIN_DOWN = 2,
    PLAIN_TESTING = 3,
    PLAIN_OUT = 4
} plain_availability;

/* The capabilities of a route: what a copy that takes it is to have. */
typedef enum {
    PLAIN_ASKS_NOTHING = 0,
    PLAIN_ASKS_CHECKSUM = 1,
    PLAIN_ASKS_HOP_COUNT = 2,
    PLAIN_ASKS_BOTH = 4
} plain_capabilities;

static inline bool plain_asks_for(uint32_t capabilities,
                                  plain_capabilities element)
{
    return capabilities == element || capabilities == PLAIN_ASKS_BOTH;
}

typedef struct {
    plain_address address;
    plain_mask mask;
    uint32_t mtu;
    uint32_t mission;
} plain_port;

/* A route, as it stands in the list. */
typedef struct {
    uint32_t filled; /* 0 where the place is empty */
    plain_address prefix;
    plain_mask mask;
    uint32_t port;
    uint32_t availability;
    uint32_t capabilities;
    uint32_t mission;
} plain_record;

/* A list that is lent, to be written or only to be read. */
typedef struct {
    plain_record *records;
    size_t count;
} plain_list;

typedef struct {
    const plain_record *records;
    size_t count;
} plain_routes;

typedef struct {
    plain_address address;
    plain_set send;
    plain_set subscribed;
} plain_group;

typedef struct {
    plain_path path;
    plain_set send;
    uint32_t here; /* whether it is delivered here */
} plain_path_place;

/* What a flooded datagram is known by when it comes again, and the second at
 * which it first came. */
typedef struct {
    uint32_t format; /* 1 to 3; 0 is a free place */
    plain_address source;
    uint32_t p_field;
    uint64_t time;
    uint32_t second;
} plain_pair;

typedef struct {
    uint32_t router;
    uint32_t lifetime;               /* of a pair, in seconds */
    uint32_t echo_drop;              /* whether no echo request is answered */
    plain_set set_up;                /* the ports that are */
    plain_set owned[PLAIN_MISSIONS]; /* those of each mission */
    plain_port ports[PLAIN_PORTS];
} plain_board;

typedef struct {
    uint32_t number;
    plain_queue queues[PLAIN_PORTS];
    plain_group groups[PLAIN_GROUPS];
    plain_path_place paths[PLAIN_PATHS];
    plain_counters counters;
    uint32_t last_second; /* the last one that was accepted */
    plain_pair pairs[PLAIN_PAIRS];
} plain_mission;

/* What a mission's call is lent. A call that looks for no route is lent no
 * list, and a view of it has none. */
typedef struct {
    const plain_board *board;
    plain_mission *mission;
    plain_routes routes;
} plain_view;

/* The two halves of a verdict: these numbers or a refusal's. */
enum {
    PLAIN_LOCAL_NO = 0,
    PLAIN_LOCAL_DELIVERED = 1,
    PLAIN_ONWARD_NOT_ASKED = 0,
    PLAIN_ONWARD_SENT = 1
};

typedef struct {
    plain_refusal refusal; /* what ended the call; all else is then 0 */
    uint32_t local;
    uint32_t onward;
    plain_set took;            /* the ports that took an entry */
    plain_set dropped;         /* the granted ports that were full */
    plain_set rewritten;       /* those that took, with the header rewritten */
    uint32_t arriving_octets;  /* of the header that came: data begin there */
    uint32_t rewritten_octets; /* of the rewritten header, 0 for none */
} plain_verdict;

/* A host without ports, lifetime 0, echo drop off. */
void plain_board_fresh(plain_board *board);

/* All places and queues empty, no pair kept, all counters and the last second
 * 0; 24 with nothing changed for a number over 1. */
plain_refusal plain_mission_fresh(plain_mission *mission, uint32_t number);

static inline bool plain_set_has(plain_set set, uint32_t port)
{
    return port < PLAIN_PORTS && (set.bits >> port & 1) != 0;
}

/* Where the header of a port stands in the output. */
static inline uint32_t plain_header_at(uint32_t port)
{
    return PLAIN_HEADER_MOST * port;
}

/* How many octets it has there; 0 where the port took no entry. A header that
 * is not rewritten is as long as the one that came. */
static inline uint32_t plain_header_octets(const plain_verdict *verdict,
                                           uint32_t port)
{
    if (!plain_set_has(verdict->took, port))
        return 0;
    return plain_set_has(verdict->rewritten, port) ? verdict->rewritten_octets
                                                   : verdict->arriving_octets;
}

/* The ports that the mission of a view has. */
plain_set plain_own_ports(const plain_view *view);

/* Settings: 0, or a refusal with nothing changed. The first of these are the
 * operator's. */
plain_refusal plain_set_router(plain_board *board, uint32_t router);
plain_refusal plain_set_lifetime(plain_board *board, uint32_t lifetime);
plain_refusal plain_set_echo_drop(plain_board *board, uint32_t drop);
plain_refusal plain_set_port(plain_board *board, uint32_t number,
                             const plain_port *port);
plain_refusal plain_set_route(const plain_board *board, plain_list list,
                              uint32_t place, const plain_record *record);
plain_refusal plain_clear_route(plain_list list, uint32_t place);
plain_refusal plain_set_group(const plain_view *view, uint32_t place,
                              const plain_group *group);
plain_refusal plain_set_path(const plain_view *view, uint32_t place,
                             const plain_path_place *path);
plain_refusal plain_clear_group(plain_mission *mission, uint32_t place);
plain_refusal plain_clear_path(plain_mission *mission, uint32_t place);

/* One datagram, received at a second. The output, which must not overlap the
 * octets, has a stretch of 50 octets for each port. Of it only the headers of
 * the ports that took an entry are written, each from the front of its port's
 * stretch on and no longer than it is. */
plain_verdict plain_receive(const plain_view *view, uint32_t arrival,
                            plain_slot slot, uint32_t second,
                            const uint8_t *octets, size_t count,
                            uint8_t *output, size_t room);

/* Datagrams received in one call: their octets laid end to end, and for each
 * its length, arrival port, slot and second, list by list. */
typedef struct {
    const uint32_t *lengths;
    size_t length_count;
    const uint32_t *ports;
    size_t port_count;
    const plain_slot *slots;
    size_t slot_count;
    const uint32_t *seconds;
    size_t second_count;
    const uint8_t *octets;
    size_t octet_count;
} plain_batch;

/* Receives each datagram of the batch in its turn as plain_receive does, into
 * the verdict of its place and into its own 400 octets of the output; 21 or 27
 * with nothing changed or written. */
plain_refusal plain_receive_many(const plain_view *view,
                                 const plain_batch *batch,
                                 plain_verdict *verdicts, size_t verdict_count,
                                 uint8_t *output, size_t room);

/* What became of an echo request: the numbers here, or 11, 14 or 15. */
enum {
    PLAIN_REPLY_NONE = 0,
    PLAIN_REPLY_SENT = 1
};

typedef struct {
    plain_refusal refusal; /* 21, 16 or 17; all else is then 0 */
    uint32_t onward;
    plain_set took;        /* the port that took the reply's entry */
    plain_set dropped;     /* the port that was full */
    uint32_t reply_octets; /* of the reply, 0 where none was sent */
} plain_echoed;

/* Answers an echo request that came by the arrival port; the slot is the
 * reply's. The room is at least that port's MTU. Of the output, which must not
 * overlap the octets, only the reply is written, and only where it is sent. For
 * the request nothing is counted. */
plain_echoed plain_echo(const plain_view *view, uint32_t arrival,
                        plain_slot slot, const uint8_t *octets, size_t count,
                        uint8_t *output, size_t room);

/* Frees the pairs of the mission whose age is over the board's lifetime; 29
 * with nothing changed. */
plain_refusal plain_sweep(const plain_view *view, uint32_t second);

/* The first entry of the port's queue; 16 or 18 with nothing written. */
plain_refusal plain_take(const plain_view *view, uint32_t port,
                         plain_entry *entry);

/* The route of the mission that an address takes, of those that are up, or
 * none. The default route has 0 ones, so these say nothing of whether one was
 * found. */
typedef struct {
    plain_refusal refusal; /* 21 for a list that is too long */
    bool found;            /* all else is 0 where it is false */
    uint32_t place;
    uint32_t ones; /* of its mask */
    uint32_t port;
} plain_found;

plain_found plain_search(const plain_view *view, plain_address address);

/* How many entries of the mission wait on the port; 21, with nothing written,
 * where there is no port of that number. On a port that is not its own nothing
 * waits. */
plain_refusal plain_waiting(const plain_mission *mission, uint32_t port,
                            uint32_t *waiting);

#endif
