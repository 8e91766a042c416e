/*
 * Answering an echo request (page 02, W-203): whether there is an answer, what
 * the reply says, and how it goes.
 *
 * The reply is cut to the arrival port's MTU with the header that it has at
 * first. Only then its route is looked for, which may make the header longer
 * (W-214), and the size that the reply then has is judged again, by the port
 * that it leaves by and by the room.
 *
 * The awkward cases: a port's address may be the broadcast of another port's
 * subnet, and is answered all the same; one octet names a system at the
 * arrival port, so the reply's addresses are known as four octets from the
 * start, and how many of them the header shows is settled last; and the reply
 * takes the route line even to an address of ours, and on a host.
 */
#include <string.h>

#include "plain_datagram.h"
#include "plain_list.h"
#include "plain_message.h"

enum {
    TP_ID_SCMP = 1,
    REPLY_DATA_MOST = PLAIN_DATA_MOST - PLAIN_REPLY_FIXED
};

typedef struct {
    plain_address to;
    plain_address from;
    plain_fields fields; /* of its header */
    plain_message message;
} reply;

static plain_refusal judge_call(const plain_view *view, uint32_t arrival,
                                size_t room)
{
    if (plain_list_too_long(view->routes.count))
        return PLAIN_SET_NUMBER;
    if (!plain_set_has(plain_own_ports(view), arrival))
        return PLAIN_NO_PORT;
    return room < view->board->ports[arrival].mtu ? PLAIN_NO_ROOM : PLAIN_GOOD;
}

/* Whether a port of the mission has the destination. Ports have unicast
 * addresses, so the limited broadcast is told from them by its class. */
static bool to_own_address(const plain_datagram *d)
{
    return d->for_this_node && d->class == PLAIN_UNICAST;
}

/* Whether a request in this datagram is answered, by what its header says. */
static bool header_permits(const plain_datagram *d)
{
    const plain_fields *fields = &d->header.fields;

    if (fields->tp_id != TP_ID_SCMP || d->flooded || d->by_path ||
        !fields->hop_present ||
        plain_local_half(d) != PLAIN_LOCAL_DELIVERED)
        return false;
    return to_own_address(d) ||
           (d->class == PLAIN_UNICAST && !d->our_broadcast);
}

/* Octets behind the length field are no part of the message. */
static bool read_request(const plain_datagram *d, const uint8_t *octets,
                         plain_message *request)
{
    const plain_header *header = &d->header;

    return plain_message_read(octets + header->header_length,
                              header->length - header->header_length,
                              request) == PLAIN_GOOD &&
           request->type == PLAIN_ECHO_REQUEST;
}

/* Shows the addresses in four octets or in one. */
static void show_addresses(reply *r, uint32_t extended)
{
    uint32_t shown = extended ? 0xffffffff : 0xff;

    r->fields.extended = extended;
    r->fields.destination.low = r->to.bits & shown;
    r->fields.source.low = r->from.bits & shown;
}

static void compose_header(const plain_view *view, const plain_datagram *d,
                           reply *r)
{
    const plain_fields *request = &d->header.fields;
    plain_fields *fields = &r->fields;

    memset(fields, 0, sizeof *fields);
    fields->tp_id = TP_ID_SCMP;
    fields->source_present = 1;
    fields->basic_qos_present = request->basic_qos_present;
    fields->precedence = request->precedence;
    fields->hop_present = 1;
    fields->hop = PLAIN_FIRST_HOP_COUNT;
    r->to = d->source;
    r->from = to_own_address(d) ? d->destination
                                : view->board->ports[d->arrival].address;
    show_addresses(r, request->extended);
}

/* All octets of the timestamp as one number; 0 for none. */
static uint64_t stamp_number(const plain_fields *fields)
{
    uint32_t after_p_field;

    if (fields->stamp_format != PLAIN_STAMP_EXPLICIT)
        return fields->time;
    after_p_field =
        plain_stamp_octets(fields->stamp_format, fields->p_field) - 1;
    return (uint64_t)fields->p_field << (8 * after_p_field) | fields->time;
}

static size_t lesser(size_t one, size_t other)
{
    return one < other ? one : other;
}

/* The request's message becomes the reply's, its data cut to what is left. */
static void compose_message(const plain_fields *request, uint32_t mtu,
                            size_t left, plain_message *message)
{
    message->hops = (uint8_t)request->hop;
    message->format = (uint8_t)request->stamp_format;
    message->timestamp = stamp_number(request);
    message->mtu = mtu;
    message->rate = 0;
    message->data_octets =
        lesser(message->data_octets, lesser(left, REPLY_DATA_MOST));
}

/* False where there is no answer. */
static bool compose(const plain_view *view, const plain_datagram *d,
                    const uint8_t *octets, reply *r)
{
    uint32_t mtu = view->board->ports[d->arrival].mtu;
    uint32_t fixed;

    if (view->board->echo_drop || !header_permits(d) ||
        !read_request(d, octets, &r->message))
        return false;
    compose_header(view, d, r);
    fixed = plain_header_measure(&r->fields) + PLAIN_REPLY_FIXED;
    if (mtu < fixed)
        return false;
    compose_message(&d->header.fields, mtu, mtu - fixed, &r->message);
    return true;
}

/* Rewrites the header for the route that it takes. */
static void fit_to_leg(const plain_view *view, uint32_t arrival,
                       const plain_record *route, reply *r)
{
    const plain_port *ports = view->board->ports;

    if (plain_domain(ports[route->port].address) !=
        plain_domain(ports[arrival].address))
        show_addresses(r, 1);
    if (plain_asks_for(route->capabilities, PLAIN_ASKS_CHECKSUM))
        r->fields.checksum_present = 1;
}

/* The port's queue takes the reply or drops it. */
static bool put(plain_mission *mission, uint32_t port, plain_entry entry,
                plain_echoed *echoed)
{
    bool taken = plain_queue_put(&mission->queues[port], entry);
    plain_set *set = taken ? &echoed->took : &echoed->dropped;

    set->bits = (uint32_t)1 << port;
    if (!taken)
        plain_count(&mission->counters, PLAIN_OUT_DISCARDS);
    return taken;
}

/* The route line: sent and written, or 11, 14 or 15. An MTU is at most 8,191,
 * so what is sent fits the length field. */
static uint32_t send_reply(const plain_view *view, uint32_t arrival,
                           plain_slot slot, reply *r, uint8_t *output,
                           size_t room, plain_echoed *echoed)
{
    const plain_record *route = plain_list_longest(
        view->board, view->mission->number, view->routes, r->to);
    plain_entry entry = {slot, (uint16_t)r->fields.precedence};
    uint32_t header, message, size;

    if (route == NULL)
        return PLAIN_NO_ROUTE;
    fit_to_leg(view, arrival, route, r);
    header = plain_header_measure(&r->fields);
    message = PLAIN_REPLY_FIXED + (uint32_t)r->message.data_octets;
    size = header + message;
    if (size > view->board->ports[route->port].mtu || size > room)
        return PLAIN_TOO_BIG;
    if (!put(view->mission, route->port, entry, echoed))
        return PLAIN_ALL_FULL;
    plain_header_write(&r->fields, header, message, output);
    plain_reply_write(&r->message, output + header);
    echoed->reply_octets = size;
    return PLAIN_REPLY_SENT;
}

plain_echoed plain_echo(const plain_view *view, uint32_t arrival,
                        plain_slot slot, const uint8_t *octets, size_t count,
                        uint8_t *output, size_t room)
{
    plain_echoed echoed = {PLAIN_GOOD, PLAIN_REPLY_NONE, {0}, {0}, 0};
    plain_counters *counters = &view->mission->counters;
    plain_datagram d;
    reply r;

    echoed.refusal = judge_call(view, arrival, room);
    if (echoed.refusal != PLAIN_GOOD ||
        plain_datagram_judge(view, arrival, octets, count, &d) != PLAIN_GOOD ||
        !compose(view, &d, octets, &r))
        return echoed;
    plain_count(counters, PLAIN_OUT_REQUESTS);
    echoed.onward = send_reply(view, arrival, slot, &r, output, room, &echoed);
    if (echoed.onward != PLAIN_REPLY_SENT)
        plain_count_refusal(counters, (plain_refusal)echoed.onward);
    return echoed;
}
