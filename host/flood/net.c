/*
 * net.c: the net as it is drawn. One node in eight is a host, and one in four
 * has an instrument. The two ends of a link are in a domain of their own, as
 * one-octet addresses need it, and so is an instrument with its port. Two nodes
 * may have more than one link.
 *
 * The awkward case is a net in which few ports are left: two nodes that have
 * one are drawn again and again, and in the end the net has fewer links.
 */
#include "net.h"

#include <stdio.h>
#include <stdlib.h>
#include <string.h>

#define TRIES_PER_LINK 100

struct node nodes[MOST_NODES];
uint32_t node_count;
/* Domains that have been given out. */
static uint32_t domains;

/* A setting here is good, and a relay that refuses it is not. */
static void require(uint32_t refusal)
{
    if (refusal == HJ_DONE)
        return;
    printf("flood: FAILED: a good setting is refused by %u\n",
           (unsigned)refusal);
    exit(1);
}

uint32_t net_ports(const struct node *node)
{
    uint32_t count = 0;

    for (uint32_t port = 0; port < HJ_PORTS; port++)
        count += node->ports >> port & 1;
    return count;
}

/* ---- Nodes ------------------------------------------------------------- */

static void draw_node(struct node *node, struct random *random)
{
    memset(node, 0, sizeof *node);
    node->router = !random_one_in(random, 8);
    require(hj_fresh_board(LENT_BOARD(node)));
    require(hj_fresh_mission(LENT_MISSION(node), 0));
    require(hj_set_router(LENT_BOARD(node), node->router));
    require(hj_set_lifetime(LENT_BOARD(node), LIFETIME));
}

static uint32_t draw_free_port(const struct node *node, struct random *random)
{
    uint32_t port = random_below(random, HJ_PORTS);

    while (node->ports >> port & 1)
        port = (port + 1) % HJ_PORTS;
    return port;
}

/* Sets up a free port in a domain; its address ends with the octet. */
static uint32_t set_up(struct node *node, uint32_t domain, uint32_t octet,
                       struct random *random)
{
    uint32_t port = draw_free_port(node, random);
    uint32_t address = 10u << 24 | domain << 8 | octet;

    require(hj_set_port(LENT_BOARD(node), port, address, 0xffffff00,
                        HJ_MOST_LENGTH, 0));
    node->ports |= UINT32_C(1) << port;
    node->addresses[port] = address;
    return port;
}

static void add_instrument(struct node *node, struct random *random)
{
    node->has_instrument = true;
    node->instrument = set_up(node, domains++, 2, random);
    node->peers[node->instrument].node = NO_NODE;
}

uint32_t net_instrument(struct random *random)
{
    uint32_t node = random_below(random, node_count);

    while (!nodes[node].has_instrument)
        node = (node + 1) % node_count;
    return node;
}

/* ---- Links ------------------------------------------------------------- */

static void join(uint32_t one, uint32_t other, struct random *random)
{
    uint32_t domain = domains++;
    struct end left = {one, set_up(&nodes[one], domain, 2, random)};
    struct end right = {other, set_up(&nodes[other], domain, 4, random)};

    nodes[one].peers[left.port] = right;
    nodes[other].peers[right.port] = left;
}

/* Joins two nodes below these numbers that have a port left; false where none
 * were found. */
static bool join_below(uint32_t first, uint32_t second, struct random *random)
{
    for (uint32_t tries = 0; tries < TRIES_PER_LINK; tries++) {
        uint32_t one = random_below(random, first);
        uint32_t other = random_below(random, second);

        if (one != other && net_ports(&nodes[one]) < HJ_PORTS &&
            net_ports(&nodes[other]) < HJ_PORTS) {
            join(one, other, random);
            return true;
        }
    }
    return false;
}

/* A link from each node to one before it. */
static uint32_t join_together(uint32_t links, struct random *random)
{
    uint32_t made = 0;

    for (uint32_t node = 1; node < node_count && made < links; node++) {
        uint32_t before = random_below(random, node);

        while (net_ports(&nodes[before]) == HJ_PORTS)
            before = (before + 1) % node;
        join(before, node, random);
        made++;
    }
    return made;
}

uint32_t net_draw(uint32_t count, uint32_t links, bool together,
                  struct random *random)
{
    uint32_t made;

    node_count = count;
    domains = 0;
    for (uint32_t node = 0; node < count; node++) {
        draw_node(&nodes[node], random);
        if (node == 0 || random_one_in(random, 4))
            add_instrument(&nodes[node], random);
    }
    made = together ? join_together(links, random) : 0;
    while (made < links && join_below(count, count, random))
        made++;
    return made;
}

/* ---- What was drawn ---------------------------------------------------- */

/* Marks all that links lead to, from a node on. */
static void mark_part(uint32_t first, bool *marked)
{
    static uint32_t found[MOST_NODES];
    uint32_t count = 1;

    found[0] = first;
    marked[first] = true;
    for (uint32_t next = 0; next < count; next++) {
        const struct node *node = &nodes[found[next]];

        for (uint32_t port = 0; port < HJ_PORTS; port++) {
            uint32_t peer = node->peers[port].node;

            if ((node->ports >> port & 1) == 0 || peer == NO_NODE ||
                marked[peer])
                continue;
            marked[peer] = true;
            found[count++] = peer;
        }
    }
}

uint32_t net_parts(void)
{
    static bool marked[MOST_NODES];
    uint32_t parts = 0;

    memset(marked, 0, sizeof marked);
    for (uint32_t node = 0; node < node_count; node++) {
        if (marked[node])
            continue;
        mark_part(node, marked);
        parts++;
    }
    return parts;
}

uint32_t net_routers(void)
{
    uint32_t count = 0;

    for (uint32_t node = 0; node < node_count; node++)
        count += nodes[node].router;
    return count;
}
