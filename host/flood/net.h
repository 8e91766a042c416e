/*
 * net.h: a net of relays, drawn at random: nodes, links between their ports,
 * and instruments, which send.
 */
#ifndef NET_H
#define NET_H

#include <stdbool.h>
#include <stdint.h>

#include "harpjuniper.h"
#include "shared/random.h"

#define MOST_NODES 1000
/* With three times as many links as nodes there are ports left over. */
#define MOST_LINKS_OF(nodes) (3 * (nodes))
/* No node: what an instrument's port leads to. */
#define NO_NODE UINT32_MAX
/* Seconds that a pair lives. */
#define LIFETIME 30

struct end {
    uint32_t node, port;
};

struct node {
    hj_board board;
    hj_mission mission; /* the first of the two; the other has no port */
    bool router;
    uint32_t ports; /* the set of those that are set up */
    uint32_t addresses[HJ_PORTS];
    struct end peers[HJ_PORTS]; /* where its links lead */
    bool has_instrument;
    uint32_t instrument; /* its port */
};

extern struct node nodes[MOST_NODES];
extern uint32_t node_count;

/* A node's board and its mission's state, as calls are lent them. */
#define LENT_BOARD(node) &(node)->board, HJ_BOARD_WORDS
#define LENT_MISSION(node) &(node)->mission, HJ_MISSION_WORDS

/* Draws a net of fresh relays. One that is to hang together gets a way between
 * any two nodes first, as far as the links go; the rest is drawn anywhere.
 * Answers how many links were made: fewer than asked for where no two nodes
 * have a port left. */
uint32_t net_draw(uint32_t count, uint32_t links, bool together,
                  struct random *random);
/* A node that has an instrument. */
uint32_t net_instrument(struct random *random);
/* In how many parts the net is, by its links. */
uint32_t net_parts(void);
uint32_t net_routers(void);
/* How many ports the node has. */
uint32_t net_ports(const struct node *node);

#endif
