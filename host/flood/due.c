/*
 * due.c: an order reaches the node where it enters, and each node to which a
 * link leads from one that sends it on. A router sends on what it does not know
 * yet, by every port but one, unless the order ends there or it has no other
 * port. It keeps the pair of what does not end there. A host does neither.
 *
 * Nothing is said of the order in which copies travel, since nothing here
 * depends on it: a router sends on by all ports but the one by which the first
 * copy came, and who sent that copy has the order already.
 */
#include "due.h"

#include <string.h>

struct due due[MOST_NODES][MOST_ORDERS];

void due_forget(void)
{
    memset(due, 0, sizeof due);
}

uint32_t due_pairs(uint32_t node)
{
    uint32_t held = 0;

    for (uint32_t order = 0; order < order_count; order++)
        held += due[node][order].keeps;
    return held;
}

/* The order comes to a node for the first time in this flood. */
static void reach(uint32_t order, uint32_t node)
{
    struct due *found = &due[node][order];
    bool carries = nodes[node].router && !order_ends(order, node);

    found->reached = true;
    found->sends_on =
        carries && !found->keeps && net_ports(&nodes[node]) > 1;
    found->keeps = found->keeps || carries;
}

/* Adds the nodes to which the node's links lead, those reached aside. */
static uint32_t add_peers(uint32_t order, uint32_t node, uint32_t *found,
                          uint32_t count)
{
    for (uint32_t port = 0; port < HJ_PORTS; port++) {
        uint32_t peer = nodes[node].peers[port].node;

        if ((nodes[node].ports >> port & 1) == 0 || peer == NO_NODE ||
            due[peer][order].reached)
            continue;
        reach(order, peer);
        found[count++] = peer;
    }
    return count;
}

uint64_t due_flood(uint32_t order, uint32_t node)
{
    static uint32_t found[MOST_NODES];
    uint32_t count = 1;
    uint64_t copies = 0;

    for (uint32_t i = 0; i < node_count; i++)
        due[i][order].reached = due[i][order].sends_on = false;
    found[0] = node;
    reach(order, node);
    for (uint32_t next = 0; next < count; next++) {
        if (!due[found[next]][order].sends_on)
            continue;
        copies += net_ports(&nodes[found[next]]) - 1;
        count = add_peers(order, found[next], found, count);
    }
    return copies;
}
