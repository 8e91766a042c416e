/*
 * copies.c: what a flood costs with the pairs, and what it would without them
 * (W-207).
 *
 * With them is counted as it happens: each copy of the order flooded last that
 * goes out on a wire, the sender's own included. Without them is counted by a
 * walk over the links as they stand: a router that keeps no pair sends each
 * copy that reaches it on by every other port of its mission, unless the order
 * is for a port of its own, and so it goes on until the hop count is used up.
 *
 * The order's own hop count bounds the walk; without one there would be no
 * end. The walk moves nothing, and takes every port as wide enough and every
 * queue as long enough.
 */
#include "copies.h"

#include <inttypes.h>
#include <stdio.h>
#include <string.h>

#include "expect.h"
#include "line.h"
#include "meaning.h"
#include "told.h"

/* With it the copies still fit into 64 bits: each becomes at most seven. */
#define MOST_HOPS 20

/* Copies on their way, by the port at which they arrive. */
typedef uint64_t arriving[MOST_NODES][HJ_PORTS];

/* The order that was flooded last. */
static struct {
    struct datagram order;
    uint32_t node, port;
    uint64_t times; /* sent; 0 for no order in this scene */
    uint64_t carried;
} flood;

void copies_scene(void)
{
    flood.times = 0;
}

static hj_fields fields_of(const struct datagram *datagram)
{
    return hj_read(datagram->octets, datagram->length).fields;
}

static bool same_octets(const struct datagram *one, const struct datagram *two)
{
    return one->length == two->length &&
           memcmp(one->octets, two->octets, one->length) == 0;
}

void copies_send(uint32_t node, uint32_t port, const struct datagram *sent)
{
    if (fields_of(sent).routing != FLOODED)
        return;
    if (flood.times == 0 || node != flood.node || port != flood.port ||
        !same_octets(sent, &flood.order)) {
        flood.order = *sent;
        flood.node = node;
        flood.port = port;
        flood.times = flood.carried = 0;
    }
    flood.times++;
}

/* A copy has the stamp and the data of the order; its addresses may have been
 * written as four octets, and its hop count has fallen. Two orders of one
 * scene with the same stamp and data would be counted as one. */
void copies_start(const struct datagram *flying)
{
    const struct datagram *order = &flood.order;
    uint32_t data = flying->length - flying->header;
    hj_fields copy = fields_of(flying);
    hj_fields whole = fields_of(order);

    if (flood.times == 0 || data != order->length - order->header ||
        memcmp(flying->octets + flying->header, order->octets + order->header,
               data) != 0)
        return;
    flood.carried += copy.routing == FLOODED &&
                     copy.stamp_format == whole.stamp_format &&
                     copy.time == whole.time;
}

/* ---- The walk without pairs -------------------------------------------- */

/* Whether the node would send on what came by the port. */
static bool sends_on(const struct node *node, uint32_t port,
                     uint64_t destination)
{
    return hj_value(hj_get_router(LENT_BOARD(node))) != 0 &&
           hj_class((uint32_t)destination) != HJ_LIMITED_BROADCAST &&
           !node_has(node, node_mission(node, port), destination);
}

/* Sends so many copies on by every other port; answers on how many wires. */
static uint64_t fan_out(const struct node *node, uint32_t came, uint64_t many,
                        arriving next)
{
    uint64_t wires = 0;

    for (uint32_t port = 0; port < HJ_PORTS; port++) {
        const struct wire *wire = &node->wires[port];

        if (port == came || !wire->linked ||
            node_mission(node, port) != node_mission(node, came))
            continue;
        next[wire->peer][wire->peer_port] += many;
        wires++;
    }
    return wires;
}

/* One hop of all that is on its way; answers how many copies are made. */
static uint64_t hop(arriving coming, uint64_t destination)
{
    static arriving next;
    uint64_t made = 0;

    memset(next, 0, sizeof next);
    for (uint32_t node = 0; node < node_count; node++) {
        for (uint32_t port = 0; port < HJ_PORTS; port++) {
            uint64_t many = coming[node][port];

            if (many > 0 && sends_on(&nodes[node], port, destination))
                made += many * fan_out(&nodes[node], port, many, next);
        }
    }
    memcpy(coming, next, sizeof next);
    return made;
}

static uint64_t without_pairs(uint32_t hops)
{
    static arriving coming;
    const struct wire *wire = &nodes[flood.node].wires[flood.port];
    uint64_t destination =
        meaning_at(&nodes[wire->peer], wire->peer_port, &flood.order)
            .destination_low;
    uint64_t made = 1;

    memset(coming, 0, sizeof coming);
    coming[wire->peer][wire->peer_port] = 1;
    for (; hops > 1; hops--)
        made += hop(coming, destination);
    return flood.times * made;
}

/* ---- The word ---------------------------------------------------------- */

/* The hop count that bounds the walk. */
static uint32_t bound(void)
{
    hj_fields fields = fields_of(&flood.order);

    if (flood.times == 0)
        line_refuse("an order that was flooded in this scene", "copies");
    if (!fields.has_hop_count || fields.hop_count > MOST_HOPS)
        line_refuse("a flooded order with a hop count of at most 20", "copies");
    return (uint32_t)fields.hop_count;
}

void copies(void)
{
    static const char WITHOUT[] = "'without', and how many without the pairs";
    uint32_t hops = bound();
    uint32_t said = line_number("how many copies", 0, UINT32_MAX);
    uint32_t said_without;
    uint64_t without = without_pairs(hops);
    bool holds;

    if (!line_is("without"))
        line_refuse(WITHOUT, line_word(WITHOUT));
    said_without = line_number(WITHOUT, 0, UINT32_MAX);
    line_end();
    holds = said == flood.carried && said_without == without;
    expect_said(holds);
    printf("   copies of ");
    told_data(&flood.order);
    printf(" on all wires: %" PRIu64 " as the relays sent it on,\n",
           flood.carried);
    printf("   %" PRIu64 " by the same links without the pairs, bounded by hop "
           "count %" PRIu32 "\n",
           without, hops);
    printf("   %s copies %" PRIu32 " without %" PRIu32 "\n",
           holds ? "as expected:" : "NOT AS EXPECTED:", said, said_without);
}
