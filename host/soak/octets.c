/*
 * octets.c: octets to lend as a datagram, and fields to build a header of. Most
 * are good headers aimed at something that the relay was told of; some of these
 * are spoiled, and some octets are nothing but random.
 *
 * The awkward case is length: most datagrams have at most 300 octets, since the
 * octets of user data matter to nobody, but one in 300 has the most that a
 * length field can say, or so few less that it has them once it is rewritten.
 */
#include "octets.h"

#include <string.h>

#include "numbers.h"
#include "shared/floods.h"

#define MOST_OCTETS 300

void soak_draw_arrival(struct soak_call *call, struct world *world,
                       struct random *random)
{
    call->numbers[0] = random_one_in(random, 24)
                           ? soak_odd_number(world, random)
                           : world_port(world, random);
    call->numbers[1] = random_below(random, 65536);
    call->numbers[2] = floods_second(world, random);
}

static uint32_t at_place(const struct world *world, struct random *random)
{
    uint32_t place = random_below(random, WORLD_ROUTES);
    uint32_t whose = world->mission;
    uint32_t group = world->groups[whose][place % WORLD_GROUPS];
    uint32_t path = world->paths[whose][place % WORLD_PATHS];

    if (world->routes[place].filled)
        return world->routes[place].prefix |
               (world_unicast(world, random) & ~world->routes[place].mask);
    if (random_one_in(random, 2))
        return group != 0 ? group : world_multicast(world, random);
    return path != 0 ? path : world_path(random);
}

static uint32_t at_broadcast(const struct world *world, struct random *random)
{
    uint32_t port = random_one_in(random, 8)
                        ? random_below(random, WORLD_PORTS)
                        : world_port(world, random);
    uint32_t address = world->ports[port].address;

    switch (random_below(random, 4)) {
    case 0:
        return 0xffffffff;
    case 1:
        return address | world_host_bits(address);
    case 2:
        return address | ~world->ports[port].mask;
    default:
        return address;
    }
}

static uint32_t draw_address(const struct world *world, struct random *random)
{
    switch (random_below(random, 8)) {
    case 0:
        return at_broadcast(world, random);
    case 1:
        return world_unicast(world, random);
    case 2:
        return world_multicast(world, random);
    case 3:
        return random_one_in(random, 4) ? world_invalid(random)
                                        : world_path(random);
    default:
        return at_place(world, random);
    }
}

/* Of a path that was set, mostly. */
static uint32_t draw_path(const struct world *world, struct random *random)
{
    uint32_t path =
        world->paths[world->mission][random_below(random, WORLD_PATHS)];

    if (random_one_in(random, 8))
        return draw_address(world, random);
    return path != 0 ? path : world_path(random);
}

static void draw_form(struct form *form, const struct world *world,
                      struct random *random)
{
    static const uint8_t HOPS[] = {0, 1, 2, 3, 64, 255};
    bool flooded = floods_next(world, random);

    form_choose(form, random);
    if (form->address_octets == 16 && !random_one_in(random, 8)) {
        form->address_octets = random_one_in(random, 2) ? 1 : 4;
        form->has_source = !random_one_in(random, 4);
    }
    if (flooded && !random_one_in(random, 8))
        form->has_source = true;
    if (form->address_octets == 1 && world->nets == INTERNET &&
        !random_one_in(random, 8))
        form->address_octets = 4; /* most would end in 7 */
    if (!random_one_in(random, 16))
        form->routing = 0;
    form->hop_count = PICK(HOPS);
    form_put_address(form, form->destination,
                     form->has_source ? draw_address(world, random)
                                      : draw_path(world, random));
    form_put_address(form, form->source,
                     random_one_in(random, 16) ? draw_address(world, random)
                                               : world_unicast(world, random));
    if (flooded)
        floods_form(world, form, random);
    form->control_octets = form_shortest_control(form);
    if (random_one_in(random, 8))
        form->control_octets = 3;
}

static void draw_random(struct soak_call *call, struct random *random)
{
    call->count = random_below(random, MOST_OCTETS + 1);
    random_octets(random, call->octets, (uint32_t)call->count);
    if (call->count > 1 && random_one_in(random, 2)) {
        call->octets[0] = 1 << 5;
        call->octets[1] = (uint8_t)random_below(random, 61);
    }
}

/* Data for a datagram of 1 to MOST_OCTETS octets, or of the most there can be
 * or just under it. */
static size_t draw_data(const struct form *form, struct random *random)
{
    uint8_t header[FORM_MOST_HEADER];
    size_t octets = form_write(form, 0, header);

    if (random_one_in(random, 300))
        return DATAGRAM_MOST_LENGTH - octets - random_below(random, 11);
    return random_below(random, random_one_in(random, 4)
                                    ? MOST_OCTETS - FORM_MOST_HEADER
                                    : 8);
}

void soak_draw_octets(struct soak_call *call, const struct world *world,
                      struct random *random)
{
    static struct datagram datagram;

    if (random_one_in(random, 10)) {
        draw_random(call, random);
        return;
    }
    draw_form(&datagram.form, world, random);
    datagram_write(&datagram, draw_data(&datagram.form, random), random);
    if (random_one_in(random, 5))
        spoil_somehow(&datagram, random);
    call->count = datagram.count;
    memcpy(call->octets, datagram.octets, datagram.count);
}

/* Any number in one field. */
static void spoil_fields(hj_fields *fields, uint32_t number,
                         struct random *random)
{
    uint64_t *wide[] = {&fields->destination_high, &fields->destination_low,
                        &fields->source_high, &fields->source_low,
                        &fields->time};
    uint32_t *narrow[] = {
        &fields->tp_id,        &fields->has_source,    &fields->extended,
        &fields->ipv6,         &fields->has_qos,       &fields->precedence,
        &fields->routing,      &fields->program,       &fields->has_hop_count,
        &fields->hop_count,    &fields->stamp_format,  &fields->p_field,
        &fields->has_expanded, &fields->expanded,      &fields->has_checksum,
        &fields->intermediate};

    if (random_one_in(random, 4)) {
        uint64_t *field = PICK(wide);

        *field = random_number(random);
        *field >>= random_below(random, 64);
    } else {
        *PICK(narrow) = number;
    }
}

void soak_draw_fields(struct soak_call *call, const struct world *world,
                      struct random *random)
{
    hj_reading reading;

    soak_draw_octets(call, world, random);
    reading = hj_read(call->octets, call->count);
    call->fields = reading.fields;
    while (random_one_in(random, 3))
        spoil_fields(&call->fields, soak_odd_number(world, random), random);
    call->data = random_below(random, 8200);
    if (random_one_in(random, 4))
        call->data = HJ_MOST_DATA - 1 + random_below(random, 3);
}
