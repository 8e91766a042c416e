/*
 * arrivals.c: `receive` lines.
 *
 * A datagram is aimed at something: a port, a route, a group, a broadcast of
 * ours and so on, each aim a function that draws a destination. Its header is
 * any form, with values of the hop count, the TP-ID and the length that stand
 * at the edges of the rules. One in eight is spoiled.
 *
 * The awkward case is the length: a datagram of an MTU's length is 8,191 octets
 * long where the MTU is, so such long ones are rare, and yet each line of the
 * rules about lengths has to be reached. So the length is aimed too: at what
 * the MTU of the port that the datagram probably goes to leaves room for, once
 * the header was rewritten.
 */
#include "arrivals.h"

#include "line.h"
#include "shared/floods.h"

/* ---- What a datagram is aimed at ----------------------------------------- */

typedef uint32_t aim(const struct world *world, struct random *random);

/* One of the mission's ports, and now and then one of the other's. */
static uint32_t some_port(const struct world *world, struct random *random)
{
    return random_one_in(random, 8) ? random_below(random, WORLD_PORTS)
                                    : world_port(world, random);
}

static uint32_t at_port(const struct world *world, struct random *random)
{
    return world->ports[some_port(world, random)].address;
}

static uint32_t at_limited_broadcast(const struct world *world,
                                     struct random *random)
{
    (void)world;
    (void)random;
    return 0xffffffff;
}

static uint32_t at_all_scps(const struct world *world, struct random *random)
{
    (void)world;
    (void)random;
    return 0x0affffff;
}

static uint32_t at_net_broadcast(const struct world *world,
                                 struct random *random)
{
    uint32_t address = at_port(world, random);

    return address | world_host_bits(address);
}

static uint32_t at_subnet_broadcast(const struct world *world,
                                    struct random *random)
{
    uint32_t port = some_port(world, random);

    return world->ports[port].address | ~world->ports[port].mask;
}

/* Of a network that may be no port's. */
static uint32_t at_other_broadcast(const struct world *world,
                                   struct random *random)
{
    uint32_t address = world_unicast(world, random);

    return address | (random_one_in(random, 2) ? 0xffu
                                               : world_host_bits(address));
}

static uint32_t at_group(const struct world *world, struct random *random)
{
    uint32_t whose = random_one_in(random, 8) ? 1 - world->mission
                                              : world->mission;
    uint32_t group = world->groups[whose][random_below(random, WORLD_GROUPS)];

    return group != 0 ? group : world_multicast(world, random);
}

static uint32_t at_invalid(const struct world *world, struct random *random)
{
    (void)world;
    return world_invalid(random);
}

static uint32_t at_any(const struct world *world, struct random *random)
{
    (void)world;
    return (uint32_t)random_number(random);
}

static uint32_t choose_destination(const struct world *world,
                                   struct random *random)
{
    static aim *const AIMS[] = {
        world_routed,     world_routed,
        world_routed,     world_routed,
        world_unicast,    world_unicast,
        at_group,         at_group,
        at_group,         at_port,
        at_net_broadcast, at_subnet_broadcast,
        at_all_scps,      at_limited_broadcast,
        at_other_broadcast, world_multicast};

    if (random_one_in(random, 32))
        return at_invalid(world, random);
    if (random_one_in(random, 64))
        return at_any(world, random);
    return PICK(AIMS)(world, random);
}

static uint32_t choose_path(const struct world *world, struct random *random)
{
    uint32_t path =
        world->paths[world->mission][random_below(random, WORLD_PATHS)];

    if (random_one_in(random, 12))
        return choose_destination(world, random);
    return path != 0 && !random_one_in(random, 4) ? path : world_path(random);
}

static uint32_t choose_source(const struct world *world, struct random *random)
{
    return random_one_in(random, 24) ? choose_destination(world, random)
                                     : world_unicast(world, random);
}

/* ---- Its header ---------------------------------------------------------- */

/* A path, which is a header without a source, is seldom flooded. */
static void aim_form(const struct world *world, struct form *form,
                     bool flooded, struct random *random)
{
    static const unsigned OCTETS[] = {4, 4, 4, 4, 4, 1, 1, 1};
    uint32_t destination;

    if (form->address_octets == 16 && !random_one_in(random, 8))
        form->address_octets = 4;
    if (form->address_octets != 16) {
        form->address_octets = PICK(OCTETS);
        form->has_source = !random_one_in(random, flooded ? 24 : 6);
    }
    destination = form->has_source ? choose_destination(world, random)
                                   : choose_path(world, random);
    form_put_address(form, form->destination, destination);
    form_put_address(form, form->source, choose_source(world, random));
}

static void choose_form(const struct world *world, struct form *form,
                        struct random *random)
{
    static const unsigned ASSIGNED[] = {1, 4, 5, 6, 8, 10, 11};
    static const uint8_t HOPS[] = {0, 1, 2, 2, 2, 3, 64, 255};
    bool flooded = floods_next(world, random);

    form_choose(form, random);
    aim_form(world, form, flooded, random);
    if (!random_one_in(random, 4))
        form->tp_id = PICK(ASSIGNED);
    if (!random_one_in(random, 24))
        form->routing = 0;
    if (flooded)
        floods_form(world, form, random);
    if (!random_one_in(random, 4))
        form->hop_count = PICK(HOPS);
    form->intermediate = random_one_in(random, 10);
    form->control_octets = form_shortest_control(form);
    if (random_one_in(random, 8))
        form->control_octets = 3;
}

/* ---- Its length ---------------------------------------------------------- */

static uint32_t domain_of(const struct world *world, uint32_t port)
{
    return world->ports[port % WORLD_PORTS].address & 0xffffff00;
}

/* The destination as four octets. */
static uint32_t named(const struct world *world, const struct form *form,
                      uint32_t arrival)
{
    uint32_t address = 0;

    for (unsigned i = 0; i < form->address_octets && i < 4; i++)
        address = address << 8 | form->destination[i];
    return form->address_octets == 1 ? domain_of(world, arrival) | address
                                     : address;
}

/* The form of the header that a port sends, by a route or by none. */
static struct form sent_form(const struct world *world,
                             const struct form *form, uint32_t arrival,
                             uint32_t port, const struct world_route *route)
{
    struct form sent = *form;
    uint32_t asked = route != NULL ? route->capabilities : 0;

    sent.has_checksum |= asked == 1 || asked == 4;
    sent.has_hop_count |= asked == 2 || asked == 4;
    if (form->address_octets == 1 && form->has_source &&
        domain_of(world, port) != domain_of(world, arrival))
        sent.address_octets = 4;
    if (sent.has_checksum != form->has_checksum ||
        sent.has_hop_count != form->has_hop_count ||
        sent.address_octets != form->address_octets)
        sent.control_octets = form_shortest_control(&sent);
    return sent;
}

static size_t header_octets(const struct form *form)
{
    uint8_t header[FORM_MOST_HEADER];

    return form_write(form, 0, header);
}

/* Data that makes the length, as it is sent, that of the port's MTU, or one off
 * it; little elsewhere. A long one that a route lengthens is less rare. */
static size_t choose_data(const struct world *world, const struct form *form,
                          uint32_t arrival, struct random *random)
{
    bool flooded = form->has_qos && form->routing == 3;
    const struct world_route *route =
        form->has_source && !flooded
            ? world_route(world, named(world, form, arrival))
            : NULL;
    uint32_t port = route != NULL ? route->port : world_port(world, random);
    struct form sent = sent_form(world, form, arrival, port, route);
    size_t came = header_octets(form);
    size_t sends = header_octets(&sent);
    size_t length = world->ports[port].mtu + random_below(random, 3);
    uint32_t rare = route != NULL && came != sends ? 18 : 200;

    if (!random_one_in(random, length > 1000 ? rare : 2) || length <= sends)
        return random_below(random, 6);
    length -= sends + 1; /* what is left for data, one under the MTU at first */
    return length + came <= DATAGRAM_MOST_LENGTH ? length
                                                 : DATAGRAM_MOST_LENGTH - came;
}

/* ---- The line ------------------------------------------------------------ */

static uint32_t choose_arrival(const struct world *world,
                               struct random *random)
{
    static const uint32_t BEYOND[] = {8, 9, 255, 256, 0xffffffff};

    if (!random_one_in(random, 40))
        return world_port(world, random);
    return random_one_in(random, 3) ? PICK(BEYOND)
                                    : random_below(random, WORLD_PORTS);
}

static uint32_t choose_room(struct random *random)
{
    static const uint32_t OTHER[] = {0, 49, 50, 399, 399, 399, 401, 450};

    return random_one_in(random, 24) ? PICK(OTHER) : 400;
}

void arrival_begin(struct arrival *arrival, struct world *world,
                   struct random *random)
{
    uint32_t slots;

    arrival->port = choose_arrival(world, random);
    slots = random_one_in(random, 2) ? 16 : 65536;
    arrival->slot = random_below(random, slots);
    arrival->second = floods_second(world, random);
}

void arrival_form(struct arrival *arrival, const struct world *world,
                  struct random *random)
{
    choose_form(world, &arrival->datagram.form, random);
}

void arrival_write(struct arrival *arrival, const struct world *world,
                   struct random *random)
{
    struct datagram *datagram = &arrival->datagram;

    datagram_write(
        datagram, choose_data(world, &datagram->form, arrival->port, random),
        random);
    if (random_one_in(random, 8))
        spoil_somehow(datagram, random);
}

void history_receive(struct world *world, struct random *random)
{
    static struct arrival arrival;
    uint32_t room = choose_room(random);

    arrival_begin(&arrival, world, random);
    arrival_form(&arrival, world, random);
    arrival_write(&arrival, world, random);
    line_octets(CALL_RECEIVE,
                (const uint32_t[]){arrival.port, arrival.slot, room,
                                   arrival.second, world->mission},
                arrival.datagram.octets, arrival.datagram.count);
}
