/*
 * orders.c: the orders as they are drawn. Sources and stamps come from small
 * sets, so that many orders have the same source, or the same stamp, or the
 * same time in another format; no two have all of it.
 *
 * An order of which both addresses belong to its instrument's domain may be
 * sent there with one octet for each. It is the same pair with four octets,
 * which is how any other instrument sends it.
 */
#include "orders.h"

#include <stdio.h>
#include <stdlib.h>
#include <string.h>

/* SCPS-TP UDP, and flood routing (tables 3-2 and 3-7). */
#define TP_ID 5
#define FLOODED 3
#define INSTRUMENTS_OCTET 4
#define NOBODYS_OCTET 20

struct order orders[MOST_ORDERS];
uint32_t order_count;

static uint32_t instrument_address(uint32_t node)
{
    const struct node *home = &nodes[node];

    return home->addresses[home->instrument];
}

/* ---- Drawing ----------------------------------------------------------- */

/* A port's address of a node that has one. */
static uint32_t draw_target(struct order *order, struct random *random)
{
    uint32_t node = random_below(random, node_count);
    uint32_t port = random_below(random, HJ_PORTS);

    if (random_one_in(random, 4))
        node = order->home;
    while (nodes[node].ports == 0)
        node = (node + 1) % node_count;
    while ((nodes[node].ports >> port & 1) == 0)
        port = (port + 1) % HJ_PORTS;
    order->target = node;
    return nodes[node].addresses[port];
}

static void draw_destination(struct order *order, struct random *random)
{
    static const enum aim AIMS[] = {FOR_ONE, FOR_ONE,    FOR_ALL,
                                    FOR_ALL, FOR_NOBODY, FOR_NEIGHBOURS};
    uint32_t domain = instrument_address(order->home) & 0xffffff00;

    order->aim = PICK(AIMS);
    if (order->aim == FOR_ONE)
        order->fields.destination_low = draw_target(order, random);
    else if (order->aim == FOR_ALL)
        order->fields.destination_low = 0x0affffff;
    else if (order->aim == FOR_NOBODY)
        order->fields.destination_low = domain | NOBODYS_OCTET;
    else
        order->fields.destination_low = 0xffffffff;
}

/* Its instrument's, or that of an order before it, for which it speaks. */
static void draw_source(struct order *order, struct random *random)
{
    uint32_t before = (uint32_t)(order - orders);
    uint32_t domain = instrument_address(order->home) & 0xffffff00;

    order->fields.has_source = 1;
    order->fields.source_low = domain | INSTRUMENTS_OCTET;
    if (before > 0 && random_one_in(random, 2))
        order->fields.source_low =
            orders[random_below(random, before)].fields.source_low;
}

/* Two octets of time after one of two P-fields, three without one, or four.
 * There are always more of them than orders before, all of which may have the
 * same source. */
static void draw_stamp(struct order *order, struct random *random)
{
    static const uint32_t FORMATS[] = {HJ_STAMP_IMPLICIT, HJ_STAMP_EXPLICIT,
                                       HJ_STAMP_BINARY};
    uint32_t before = (uint32_t)(order - orders);
    hj_fields *fields = &order->fields;

    fields->stamp_format = PICK(FORMATS);
    if (fields->stamp_format == HJ_STAMP_EXPLICIT)
        fields->p_field = random_one_in(random, 2) ? 0x11 : 0x14;
    fields->time = random_below(random, 3 + before / 4);
}

static bool same_pair(const hj_fields *one, const hj_fields *other)
{
    return one->source_low == other->source_low &&
           one->stamp_format == other->stamp_format &&
           one->p_field == other->p_field && one->time == other->time;
}

static bool is_new(uint32_t order)
{
    for (uint32_t other = 0; other < order; other++) {
        if (same_pair(&orders[order].fields, &orders[other].fields))
            return false;
    }
    return true;
}

static void draw_order(struct order *order, struct random *random)
{
    hj_fields *fields = &order->fields;
    uint32_t domain;

    memset(order, 0, sizeof *order);
    order->home = net_instrument(random);
    fields->tp_id = TP_ID;
    fields->extended = 1;
    fields->has_qos = 1;
    fields->precedence = random_below(random, 16);
    fields->routing = FLOODED;
    fields->has_checksum = random_below(random, 2);
    draw_destination(order, random);
    draw_source(order, random);
    draw_stamp(order, random);
    domain = instrument_address(order->home) >> 8;
    order->short_form = fields->source_low >> 8 == domain &&
                        fields->destination_low >> 8 == domain &&
                        random_one_in(random, 2);
}

void orders_draw(uint32_t count, struct random *random)
{
    order_count = 0;
    while (order_count < count) {
        draw_order(&orders[order_count], random);
        order_count += is_new(order_count);
    }
}

/* ---- What an order is -------------------------------------------------- */

uint32_t order_octets(uint32_t order, uint32_t node, uint8_t *octets)
{
    hj_fields fields = orders[order].fields;
    hj_answer built;

    if (orders[order].short_form && orders[order].home == node) {
        fields.extended = 0;
        fields.destination_low &= 0xff;
        fields.source_low &= 0xff;
    }
    built = hj_build(fields, DATA_OCTETS, octets, HJ_HEADER_ROOM);
    if (hj_refusal(built) != HJ_DONE) {
        printf("flood: FAILED: good fields are refused by %u\n",
               (unsigned)hj_refusal(built));
        exit(1);
    }
    memset(octets + hj_value(built), 0, DATA_OCTETS);
    octets[hj_value(built)] = (uint8_t)order;
    return hj_value(built) + DATA_OCTETS;
}

bool order_delivered(uint32_t order, uint32_t node)
{
    return orders[order].aim == FOR_ALL || order_ends(order, node);
}

bool order_ends(uint32_t order, uint32_t node)
{
    return orders[order].aim == FOR_NEIGHBOURS ||
           (orders[order].aim == FOR_ONE && orders[order].target == node);
}
