/*
 * nodes.h: the nodes of a rehearsal, and the clock. A node is what flight
 * software would be: a relay of the library's, which two missions may share,
 * the datagrams that it keeps for each of them by slot, and a wire on each
 * port. A call is made for the mission that has the port.
 */
#ifndef NODES_H
#define NODES_H

#include <stdbool.h>
#include <stdint.h>

#include "harpjuniper.h"

#define MOST_NODES 32
#define MOST_NAME 20
/* Routing requirements of a flooded datagram (table 3-7). */
#define FLOODED 3
/* Octets of data in one datagram that a scenario sends. */
#define MOST_DATA 400
/* Octets of user data in any: an echo message has its own before the data. */
#define MOST_USER_DATA (HJ_REPLY_OCTETS + MOST_DATA)
/* Datagrams of a node's own that may stand before one of its wires. */
#define MOST_OWN 64
/* One for each entry that can wait on all ports, and for each datagram that
 * arrives at one moment, one by each port. */
#define SLOTS (HJ_PORTS * HJ_QUEUE + HJ_PORTS)

struct datagram {
    uint32_t header; /* octets of the header, at the front */
    uint32_t length; /* octets of header and data */
    uint8_t octets[HJ_HEADER_ROOM + MOST_USER_DATA];
};

/* What a node keeps under a slot: a datagram that came, and a header for each
 * port; or a reply to an echo, which goes out as it stands. */
struct kept {
    bool reply;
    struct datagram came; /* or the reply */
    hj_verdict verdict;
    uint8_t output[HJ_OUTPUT_ROOM];
    uint32_t copies; /* entries that wait with this slot; 0: free */
};

/* The wire that a port sends on, and what is known of the port's copies. */
struct wire {
    bool linked, held, busy;
    bool cut, lost; /* the link; what is on the wire */
    uint32_t peer, peer_port, bits_per_second;
    uint64_t until; /* when what is on the wire arrives */
    struct datagram flying;
    struct datagram own[MOST_OWN];
    uint32_t own_first, own_count;
    uint64_t took, dropped, handed_out;
};

struct node {
    char name[MOST_NAME + 1];
    hj_board board;
    hj_mission missions[HJ_MISSIONS];
    hj_record routes[HJ_ROUTES];
    struct wire wires[HJ_PORTS];
    struct kept slots[HJ_MISSIONS][SLOTS];
    bool answered; /* whether the two below are of this scene */
    hj_verdict verdict;
    hj_fields named; /* what came last, its addresses as four octets */
    /* In this scene, and those of them that were sent on. */
    uint32_t arrivals, sent_on;
};

extern struct node nodes[MOST_NODES];
extern uint32_t node_count;
/* Microseconds since the rehearsal began. */
extern uint64_t now;

/* A node's board, a mission's state and the routes, as calls are lent them. */
#define LENT_BOARD(node) &(node)->board, HJ_BOARD_WORDS
#define LENT_MISSION(node, which) &(node)->missions[which], HJ_MISSION_WORDS
#define LENT_ROUTES(node) (node)->routes, HJ_ROUTES

/* The mission that has the port, 0 where it is not set up. */
uint32_t node_mission(const struct node *node, uint32_t port);
/* Whether the mission has a port there. */
bool node_carries(const struct node *node, uint32_t mission);

uint32_t node_counter(const struct node *node, uint32_t mission,
                      uint32_t counter);
/* All of them, HJ_COUNTERS. */
void node_counters(const struct node *node, uint32_t mission,
                   uint32_t *counters);
/* Whether a port of the mission's has the address. */
bool node_has(const struct node *node, uint32_t mission, uint64_t address);
/* What is kept under a slot that a port handed out, or may. */
const struct kept *node_kept(const struct node *node, uint32_t port,
                             uint32_t slot);
/* The copy of it for a port that took one: the port's header, and the data. */
void kept_copy(const struct kept *kept, uint32_t port, struct datagram *copy);
uint32_t kept_copy_octets(const struct kept *kept, uint32_t port);
/* Pairs that the mission holds. */
uint32_t node_pairs(const struct node *node, uint32_t mission);
/* Of the mission that has the port. */
uint32_t node_waiting(const struct node *node, uint32_t port);

/* The clock in whole seconds, which is what a relay is given. */
uint32_t second_now(void);

/* How long so many octets are on a wire. */
uint64_t wire_microseconds(uint32_t octets, uint32_t bits_per_second);

#endif
