/*
 * echoes.c: the rule of echo requests, said in full, since it needs no group
 * and no path: a request without a source gets no reply, and one to a multicast
 * address gets none either. The header that came is read by host/plain; the
 * reply is written here, its header by form.c, so by neither of the two that
 * are compared.
 *
 * The awkward case is a port whose words no history leaves: an address that is
 * no unicast one, a mask of any bits, an MTU of any size. They are taken as
 * they stand (docs/STATES.md).
 */
#include "echoes.h"

#include <string.h>

#include "list.h"
#include "plain/plain_address.h"
#include "shared/form.h"

#define IN_NET_10 10
#define FIRST_HOP_COUNT 64

/* ---- Whether a reply is due ---------------------------------------------- */

static bool is_ours(const struct soak_judged *asked, uint32_t port)
{
    return list_has_port(asked->due->board, asked->due->mission->words[0],
                         port);
}

static uint32_t class_of(uint32_t bits)
{
    plain_address address = {bits};

    return plain_address_class(address);
}

/* Whether a port of the mission has the address. */
static bool is_own(const struct soak_judged *asked, uint32_t address)
{
    bool own = false;

    for (uint32_t port = 0; port < HJ_PORTS; port++)
        own = own || (is_ours(asked, port) &&
                      soak_port_words(asked, port)[1] == address);
    return own;
}

static bool is_subnet_broadcast(const struct soak_judged *asked,
                                uint32_t address)
{
    bool found = false;

    for (uint32_t port = 0; port < HJ_PORTS; port++) {
        const uint32_t *words = soak_port_words(asked, port);

        found = found || (is_ours(asked, port) &&
                          (words[1] | ~words[2]) == address);
    }
    return found;
}

/* Whether the header is one of a request that page 01 delivers and that goes to
 * one system alone. */
static bool is_for_one(const struct soak_judged *asked)
{
    const plain_fields *fields = &asked->came->fields;
    uint32_t to = soak_filled_in(asked, fields->destination);
    uint32_t from = soak_filled_in(asked, fields->source);

    if (!fields->extended &&
        soak_port_words(asked, asked->call->numbers[0])[1] >> 24 != IN_NET_10)
        return false;
    if (class_of(to) == HJ_INVALID || class_of(from) != HJ_UNICAST)
        return false;
    return is_own(asked, to) ||
           (fields->intermediate && class_of(to) == HJ_UNICAST &&
            !is_subnet_broadcast(asked, to));
}

/* Whether the octets are an echo request, its checksum included. */
static bool is_request(const uint8_t *message, size_t count)
{
    static uint8_t copy[DATAGRAM_MOST_LENT];

    if (count < HJ_REQUEST_OCTETS || message[0] != HJ_ECHO_REQUEST ||
        message[1] != 0)
        return false;
    memcpy(copy, message, count);
    memset(copy + 2, 0, 2);
    return form_checksum(copy, count) ==
           ((uint32_t)message[2] << 8 | message[3]);
}

static bool is_answered(const struct soak_judged *asked)
{
    const plain_header *came = asked->came;
    const plain_fields *fields = &came->fields;

    return asked->due->board->words[SOAK_ECHO_DROP_AT] == 0 &&
           fields->tp_id == HJ_TP_SCMP && fields->source_present &&
           !fields->ipv6 && fields->routing == 0 && fields->hop_present &&
           is_for_one(asked) &&
           is_request(asked->call->octets + came->header_length,
                      came->length - came->header_length);
}

/* ---- The reply ----------------------------------------------------------- */

/* Its header, before a route makes anything of it. */
static struct form form_of(const struct soak_judged *asked)
{
    const plain_fields *fields = &asked->came->fields;
    uint32_t to = soak_filled_in(asked, fields->destination);
    uint32_t here = soak_port_words(asked, asked->call->numbers[0])[1];
    struct form form = {.tp_id = HJ_TP_SCMP,
                        .address_octets = fields->extended ? 4 : 1,
                        .has_source = true,
                        .has_qos = fields->basic_qos_present != 0,
                        .precedence = fields->precedence,
                        .has_hop_count = true,
                        .hop_count = FIRST_HOP_COUNT,
                        .control_octets = 2};

    form_put_address(&form, form.destination,
                     soak_filled_in(asked, fields->source));
    form_put_address(&form, form.source, is_own(asked, to) ? to : here);
    return form;
}

/* The form as the route sends it. */
static struct form form_by(const struct soak_judged *asked,
                           const hj_record *route)
{
    const plain_fields *fields = &asked->came->fields;
    uint32_t to = soak_filled_in(asked, fields->destination);
    uint32_t here = soak_port_words(asked, asked->call->numbers[0])[1];
    struct form form = form_of(asked);

    if (!fields->extended &&
        soak_port_words(asked, route->port)[1] >> 8 != here >> 8) {
        form.address_octets = 4;
        form_put_address(&form, form.destination,
                         soak_filled_in(asked, fields->source));
        form_put_address(&form, form.source, is_own(asked, to) ? to : here);
    }
    form.has_checksum = route->capabilities == HJ_CAPABLE_CHECKSUM ||
                        route->capabilities == HJ_CAPABLE_BOTH;
    return form;
}

static void put_number(uint8_t *octets, uint64_t number, unsigned count)
{
    for (; count > 0; count--, number >>= 8)
        octets[count - 1] = (uint8_t)number;
}

static uint64_t stamp_of(const plain_fields *fields)
{
    struct form form = {.stamp_format = fields->stamp_format,
                        .p_field = (uint8_t)fields->p_field};
    uint64_t p_field = fields->stamp_format == 2 ? fields->p_field : 0;

    return p_field << 8 * form_time_octets(&form) | fields->time;
}

/* The message with so much of the request's data. */
static void write_message(const struct soak_judged *asked, size_t data,
                          uint8_t *message)
{
    const plain_fields *fields = &asked->came->fields;
    const uint8_t *request =
        asked->call->octets + asked->came->header_length;

    memset(message, 0, HJ_REPLY_OCTETS);
    memcpy(message + 4, request + 4, 4); /* identifier and sequence */
    message[8] = (uint8_t)fields->hop;
    message[9] = (uint8_t)fields->stamp_format;
    put_number(message + 10, stamp_of(fields), 8);
    put_number(message + 18,
               soak_port_words(asked, asked->call->numbers[0])[3], 4);
    memcpy(message + HJ_REPLY_OCTETS, request + HJ_REQUEST_OCTETS, data);
    put_number(message + 2, form_checksum(message, HJ_REPLY_OCTETS + data), 2);
}

static size_t least(size_t one, size_t other)
{
    return one < other ? one : other;
}

/* Where it goes, and what becomes of it there. */
static void send(const struct soak_judged *asked, size_t data,
                 struct soak_reply *reply)
{
    const plain_fields *fields = &asked->came->fields;
    const hj_record *route =
        list_longest(asked->due, soak_filled_in(asked, fields->source), false);
    size_t message = HJ_REPLY_OCTETS + data;
    struct form form;
    size_t header;

    reply->onward = HJ_NO_ROUTE;
    if (route == NULL)
        return;
    reply->port = route->port;
    form = form_by(asked, route);
    header = form_write(&form, message, reply->octets);
    write_message(asked, data, reply->octets + header);
    reply->count = header + message;
    if (reply->count > soak_port_words(asked, route->port)[3] ||
        reply->count > HJ_MOST_LENGTH || reply->count > asked->call->room)
        reply->onward = HJ_TOO_BIG;
    else
        reply->onward = asked->due->mission->words[SOAK_QUEUES_AT +
                                                   SOAK_QUEUE_WORDS *
                                                       route->port +
                                                   HJ_QUEUE] < HJ_QUEUE
                            ? HJ_SENT_ON
                            : HJ_QUEUES_FULL;
}

void soak_reply_due(const struct soak_call *call,
                    const struct library_lent *due, struct soak_reply *reply)
{
    plain_header came;
    struct soak_judged asked = {call, NULL, &came, due};
    uint8_t header[FORM_MOST_HEADER];
    struct form form;
    size_t fixed, mtu;

    reply->onward = HJ_NO_REPLY;
    reply->port = 0;
    if (plain_header_read(call->octets, call->count, &came) != PLAIN_GOOD ||
        !is_answered(&asked))
        return;
    form = form_of(&asked);
    fixed = form_write(&form, 0, header) + HJ_REPLY_OCTETS;
    mtu = soak_port_words(&asked, call->numbers[0])[3];
    if (mtu < fixed)
        return;
    reply->precedence = came.fields.precedence;
    send(&asked,
         least(came.length - came.header_length - HJ_REQUEST_OCTETS,
               least(mtu - fixed, HJ_MOST_DATA - HJ_REPLY_OCTETS)),
         reply);
}
