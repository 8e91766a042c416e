/*
 * sends.c: the word that sends. A header is built by the library (hj_build) and
 * goes out on the sender's own wire, with a text behind it or with an echo
 * request (hj_build_request).
 */
#include "sends.h"

#include <string.h>

#include "copies.h"
#include "line.h"
#include "messages.h"
#include "names.h"
#include "net.h"
#include "told.h"

/* SCPS-TP UDP, table 3-2. */
#define USUAL_TP_ID 5

struct order {
    hj_fields fields;
    uint32_t times;
    bool has_destination, has_source;
    bool counts_up; /* each of the times has the next stamp */
    bool echo;      /* else a text */
    uint32_t octets;
    uint8_t data[MOST_USER_DATA];
};

static const char ADDRESS[] = "an address, as 10.2.2.14 or 14";

static void set_destination(struct order *order, bool path)
{
    uint32_t extended;
    uint32_t number = line_address(ADDRESS, &extended);

    if (order->has_destination)
        line_refuse("one 'to' or one 'path'", path ? "path" : "to");
    order->has_destination = true;
    order->fields.destination_low = number;
    order->fields.extended = extended;
    order->fields.has_source = !path;
}

static void set_source(struct order *order)
{
    uint32_t extended;
    uint32_t number = line_address(ADDRESS, &extended);

    if (!order->fields.has_source)
        line_refuse("'to' before 'from', and no 'from' with a path", "from");
    if (order->fields.extended != extended)
        line_refuse("two addresses of one octet, or two of four", "from");
    order->has_source = true;
    order->fields.source_low = number;
}

static bool read_address(struct order *order)
{
    if (line_is("to"))
        set_destination(order, false);
    else if (line_is("path"))
        set_destination(order, true);
    else if (line_is("from"))
        set_source(order);
    else
        return false;
    return true;
}

static bool read_quality(hj_fields *fields)
{
    if (line_is("precedence")) {
        fields->has_qos = 1;
        fields->precedence = line_number("a precedence, 0 to 15", 0, 15);
    } else if (line_is("hops")) {
        fields->has_hop_count = 1;
        fields->hop_count = line_number("a hop count, 0 to 255", 0, 255);
    } else if (line_is("transport")) {
        fields->tp_id = line_number("a transport number, 0 to 15", 0, 15);
    } else if (line_is("checksum")) {
        fields->has_checksum = 1;
    } else if (line_is("intermediate")) {
        fields->intermediate = 1;
    } else {
        return false;
    }
    return true;
}

/* A stamp has four octets of time. */
static bool read_flood(struct order *order)
{
    bool counts_up = line_is("stamps");

    if (line_is("flood")) {
        order->fields.has_qos = 1;
        order->fields.routing = FLOODED;
        return true;
    }
    if (!counts_up && !line_is("stamp"))
        return false;
    order->counts_up = counts_up;
    order->fields.stamp_format = HJ_STAMP_BINARY;
    order->fields.time =
        line_number("a stamp, 0 to 4294967295", 0, UINT32_MAX);
    return true;
}

static void read_order(struct order *order)
{
    static const char EXPECTED[] =
        "to, from, path, precedence, hops, transport, checksum, intermediate, "
        "flood, stamp, stamps, times, echo or data";

    while (!(order->echo = line_is("echo")) && !line_is("data")) {
        if (line_is("times"))
            order->times = line_number("how often, 1 to 64", 1, MOST_OWN);
        else if (!read_address(order) && !read_quality(&order->fields) &&
                 !read_flood(order))
            line_refuse(EXPECTED, line_word(EXPECTED));
    }
    if (!order->has_destination)
        line_refuse("'to' or 'path' before the data", "data");
    if (order->fields.has_source && !order->has_source)
        line_refuse("'from' with 'to', before the data", "data");
}

/* Its identifier and sequence number, and how many octets of data it has. */
static void read_echo(struct order *order)
{
    uint32_t identifier =
        line_number("an identifier, 0 to 65535", 0, UINT16_MAX);
    uint32_t sequence =
        line_number("a sequence number, 0 to 65535", 0, UINT16_MAX);
    uint32_t octets = 0;

    if (line_is("octets"))
        octets = line_number("octets of data, 0 to 400", 0, MOST_DATA);
    order->fields.tp_id = HJ_TP_SCMP;
    order->octets = message_request((uint16_t)identifier, (uint16_t)sequence,
                                    octets, order->data);
}

static void read_text(struct order *order)
{
    const char *text = line_text("the data as \"text\"");

    order->octets = (uint32_t)strlen(text);
    memcpy(order->data, text, order->octets);
}

static void build(const struct order *order, struct datagram *datagram)
{
    uint32_t refusal = datagram_build(&order->fields, order->data,
                                      order->octets, datagram);

    if (refusal != HJ_DONE)
        line_refuse("fields that hj_build takes", number_name(refusal));
}

void event_send(void)
{
    static struct datagram datagram;
    struct order order = {.fields = {.tp_id = USUAL_TP_ID}, .times = 1};
    uint32_t node = line_node();
    uint32_t port = line_port();

    if (!nodes[node].wires[port].linked)
        line_refuse("a port with a link", nodes[node].name);
    read_order(&order);
    if (order.echo)
        read_echo(&order);
    else
        read_text(&order);
    line_end();
    for (uint32_t time = 0; time < order.times; time++) {
        build(&order, &datagram);
        if (!net_send(node, port, &datagram))
            line_refuse("at most 64 datagrams before a wire", "more");
        copies_send(node, port, &datagram);
        told_send(node, port, &order.fields, &datagram);
        order.fields.time += order.counts_up;
    }
    net_start_wires();
}
