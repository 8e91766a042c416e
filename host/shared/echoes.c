/*
 * echoes.c: echo requests, drawn for what decides about an answer: where the
 * request is for, how it came, what message it carries, and how long the reply
 * is.
 *
 * The awkward case is the length. A reply is cut by the arrival port's MTU or
 * by 8,141 octets of user data, and is then held against the MTU of the port
 * that it goes to; so the data are aimed at one of these, a few octets off.
 * Long ones are rare, since each is a line of many thousand characters.
 */
#include "echoes.h"

#include <string.h>

#include "floods.h"
#include "message.h"

#define SCMP 1
#define MOST_DATA 8141 /* of a datagram that is built */
#define LONG 1000

/* ---- Where it is for, and from ------------------------------------------- */

static uint32_t domain_of(const struct world *world, uint32_t port)
{
    return world->ports[port % WORLD_PORTS].address & 0xffffff00;
}

static uint32_t at_port(const struct world *world, uint32_t arrival,
                        struct random *random)
{
    uint32_t port = random_one_in(random, 8) ? random_below(random, WORLD_PORTS)
                                             : world_port(world, random);

    return world->ports[random_one_in(random, 2) ? arrival % WORLD_PORTS
                                                 : port]
        .address;
}

static uint32_t at_many(const struct world *world, uint32_t arrival,
                        struct random *random)
{
    uint32_t port = world_port(world, random);
    uint32_t address = world->ports[port].address;

    switch (random_below(random, 6)) {
    case 0:
        return 0xffffffff;
    case 1:
        return 0x0affffff;
    case 2:
        return address | world_host_bits(address);
    case 3:
        return address | ~world->ports[port].mask;
    case 4:
        return domain_of(world, arrival) | 255;
    default:
        return world_multicast(world, random);
    }
}

static uint32_t choose_destination(const struct world *world, uint32_t arrival,
                                   struct random *random)
{
    switch (random_below(random, 8)) {
    case 0:
        return at_many(world, arrival, random);
    case 1:
        return world_unicast(world, random);
    case 2:
    case 3:
        return world_routed(world, random);
    default:
        return at_port(world, arrival, random);
    }
}

/* Mostly one that a route leads back to. */
static uint32_t choose_source(const struct world *world, struct random *random)
{
    uint32_t address = world_routed(world, random);

    for (int tries = 0; tries < 8 && world_route(world, address) == NULL;
         tries++)
        address = world_routed(world, random);
    return random_one_in(random, 12) ? world_unicast(world, random) : address;
}

/* ---- Its header ---------------------------------------------------------- */

static void aim_form(const struct world *world, uint32_t arrival,
                     struct form *form, struct random *random)
{
    bool in_net_10 = domain_of(world, arrival) >> 24 == 10;

    form->address_octets =
        random_one_in(random, in_net_10 ? 3 : 24) ? 1 : 4;
    form->has_source = !random_one_in(random, 24);
    form->has_hop_count = !random_one_in(random, 24);
    form_put_address(form, form->destination,
                     choose_destination(world, arrival, random));
    form_put_address(form, form->source, choose_source(world, random));
}

static void choose_form(const struct world *world, uint32_t arrival,
                        struct form *form, struct random *random)
{
    static const uint8_t HOPS[] = {0, 1, 2, 63, 64, 255};

    form_choose(form, random);
    aim_form(world, arrival, form, random);
    if (!random_one_in(random, 24))
        form->tp_id = SCMP;
    if (!random_one_in(random, 32))
        form->routing = 0;
    if (random_one_in(random, 24))
        floods_form(world, form, random);
    form->hop_count = PICK(HOPS);
    form->intermediate = random_one_in(random, 2);
    form->control_octets = form_shortest_control(form);
    if (random_one_in(random, 8))
        form->control_octets = 3;
}

/* ---- Its message --------------------------------------------------------- */

/* The source as four octets. */
static uint32_t source_of(const struct world *world, const struct form *form,
                          uint32_t arrival)
{
    uint32_t address = 0;

    for (unsigned i = 0; i < form->address_octets; i++)
        address = address << 8 | form->source[i];
    return form->address_octets == 1 ? domain_of(world, arrival) | address
                                     : address;
}

/* Octets of the reply before its data, as it is made and as it is sent. */
static size_t made_octets(const struct form *form)
{
    return 5 + 2 * form->address_octets + form->has_qos + MESSAGE_REPLY_OCTETS;
}

static size_t sent_octets(const struct world *world, const struct form *form,
                          uint32_t arrival, const struct world_route *route)
{
    bool widened = form->address_octets == 1 &&
                   domain_of(world, route->port) != domain_of(world, arrival);
    bool checked = route->capabilities == 1 || route->capabilities == 4;

    return made_octets(form) + (widened ? 6 : 0) + (checked ? 2 : 0);
}

/* How much data brings the reply to one of the limits. */
static size_t limit(const struct world *world, const struct form *form,
                    uint32_t arrival, struct random *random)
{
    const struct world_route *route =
        world_route(world, source_of(world, form, arrival));
    size_t mtu = world->ports[arrival % WORLD_PORTS].mtu;
    size_t fixed = made_octets(form);

    if (route != NULL && random_one_in(random, 2)) {
        mtu = world->ports[route->port].mtu;
        fixed = sent_octets(world, form, arrival, route);
    }
    if (mtu > LONG && random_one_in(random, 2))
        return MOST_DATA - MESSAGE_REPLY_OCTETS;
    return mtu > fixed ? mtu - fixed : 0;
}

/* Data to a limit or one off it, as much as the datagram holds; mostly few. */
static size_t choose_data(const struct world *world, const struct form *form,
                          uint32_t arrival, struct random *random)
{
    uint8_t header[FORM_MOST_HEADER];
    size_t most = DATAGRAM_MOST_LENGTH - MESSAGE_REQUEST_OCTETS -
                  form_write(form, 0, header);
    size_t data = limit(world, form, arrival, random);

    if (!random_one_in(random, data > LONG ? 30 : 2))
        return random_below(random, 6);
    data += random_below(random, 3);
    data = data < 1 ? 0 : data - 1;
    return data < most ? data : most;
}

static void carry_message(struct datagram *datagram,
                          const struct message *message)
{
    datagram->header =
        form_write(&datagram->form, message->count, datagram->octets);
    datagram->count = datagram->header + message->count;
    memcpy(datagram->octets + datagram->header, message->octets,
           message->count);
}

void echoes_request(const struct world *world, uint32_t arrival,
                    struct datagram *datagram, struct random *random)
{
    static struct message message;
    uint8_t type = random_one_in(random, 24) ? MESSAGE_REPLY : MESSAGE_REQUEST;
    size_t data;

    choose_form(world, arrival, &datagram->form, random);
    data = choose_data(world, &datagram->form, arrival, random);
    if (type == MESSAGE_REPLY)
        data = random_below(random, 6);
    message_write(&message, type, data, random);
    if (random_one_in(random, 8))
        message_spoil(&message, random);
    carry_message(datagram, &message);
    if (random_one_in(random, 16))
        spoil_somehow(datagram, random);
    else if (random_one_in(random, 16))
        add_after(datagram, random);
}

uint32_t echoes_room(const struct world *world, uint32_t arrival,
                     struct random *random)
{
    static const uint32_t MORE[] = {0, 0, 0, 1, 1, 1, 2, 2, 5, 6, 7, 7, 8, 100};
    uint32_t mtu = world->ports[arrival % WORLD_PORTS].mtu;

    if (mtu > 0 && random_one_in(random, 24))
        return random_one_in(random, 2) ? mtu - 1 : random_below(random, mtu);
    return mtu + PICK(MORE);
}
