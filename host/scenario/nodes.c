/*
 * nodes.c: the nodes, which every part of the rehearsal looks at. What happens
 * to them is in settings.c and net.c.
 *
 * The awkward case is a time that is no whole number of microseconds: it is
 * rounded up, since a datagram arrives whole.
 */
#include "nodes.h"

#include <string.h>

struct node nodes[MOST_NODES];
uint32_t node_count;
uint64_t now;

uint32_t node_mission(const struct node *node, uint32_t port)
{
    return hj_get_port(LENT_BOARD(node), port).mission;
}

bool node_carries(const struct node *node, uint32_t mission)
{
    for (uint32_t port = 0; port < HJ_PORTS; port++) {
        hj_port found = hj_get_port(LENT_BOARD(node), port);

        if (found.ready && found.mission == mission)
            return true;
    }
    return false;
}

uint32_t node_counter(const struct node *node, uint32_t mission,
                      uint32_t counter)
{
    return hj_value(hj_counter(LENT_MISSION(node, mission), counter));
}

void node_counters(const struct node *node, uint32_t mission,
                   uint32_t *counters)
{
    for (uint32_t counter = 0; counter < HJ_COUNTERS; counter++)
        counters[counter] = node_counter(node, mission, counter);
}

bool node_has(const struct node *node, uint32_t mission, uint64_t address)
{
    for (uint32_t port = 0; port < HJ_PORTS; port++) {
        hj_port found = hj_get_port(LENT_BOARD(node), port);

        if (found.ready && found.mission == mission && found.address == address)
            return true;
    }
    return false;
}

uint32_t node_pairs(const struct node *node, uint32_t mission)
{
    uint32_t held = 0;

    for (uint32_t place = 0; place < HJ_PAIRS; place++)
        held += hj_get_pair(LENT_MISSION(node, mission), place).format !=
                HJ_STAMP_NONE;
    return held;
}

const struct kept *node_kept(const struct node *node, uint32_t port,
                             uint32_t slot)
{
    return &node->slots[node_mission(node, port)][slot];
}

uint32_t kept_copy_octets(const struct kept *kept, uint32_t port)
{
    if (kept->reply)
        return kept->came.length;
    return hj_header_octets(kept->verdict, port) + kept->came.length -
           hj_data_from(kept->verdict);
}

void kept_copy(const struct kept *kept, uint32_t port, struct datagram *copy)
{
    if (kept->reply) {
        *copy = kept->came;
        return;
    }
    copy->header = hj_header_octets(kept->verdict, port);
    copy->length = kept_copy_octets(kept, port);
    memcpy(copy->octets, hj_header(kept->output, port), copy->header);
    memcpy(copy->octets + copy->header,
           kept->came.octets + hj_data_from(kept->verdict),
           copy->length - copy->header);
}

uint32_t node_waiting(const struct node *node, uint32_t port)
{
    uint32_t mission = node_mission(node, port);

    return hj_value(hj_waiting(LENT_MISSION(node, mission), port));
}

uint32_t second_now(void)
{
    return (uint32_t)(now / 1000000);
}

uint64_t wire_microseconds(uint32_t octets, uint32_t bits_per_second)
{
    uint64_t bits = UINT64_C(8) * octets;

    return (bits * 1000000 + bits_per_second - 1) / bits_per_second;
}
