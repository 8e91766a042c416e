/*
 * ports.c: `set_port` lines. The number 35 comes by itself: ports that are set
 * up are written again.
 */
#include "ports.h"

#include "line.h"
#include "ways.h"

struct port {
    uint32_t number, address, mask, mtu, mission;
};

static uint32_t port_mask(uint32_t address, struct random *random)
{
    static const uint32_t ONES[] = {8, 16, 22, 24, 24, 28, 28, 28, 30};
    uint32_t mask = world_mask(address >> 24 == 10 ? 24 : PICK(ONES));

    return (address | mask) == 0xffffffffu ? world_mask(24) : mask;
}

static uint32_t choose_mtu(struct random *random)
{
    static const uint32_t SMALL[] = {1,  12, 16, 20, 24, 32, 33, 34,
                                     38, 39, 39, 40, 40, 576};
    static const uint32_t MIDDLE[] = {42, 48, 60, 64, 100, 200};

    switch (random_below(random, 8)) {
    case 0:
        return PICK(SMALL);
    case 1:
        return PICK(MIDDLE);
    case 2:
    case 3:
        return WORLD_MOST_LENGTH - 1;
    default:
        return WORLD_MOST_LENGTH;
    }
}

/* Not unicast, of every class. */
static uint32_t not_unicast(struct random *random)
{
    static const uint32_t ADDRESS[] = {0xffffffff, 0x0affffff, 0x0a0409ff,
                                       0x0a04090f, 0xac10ffff, 0xe0000001,
                                       0x0a0409fe, 0x7f000001, 0x09ffffff};

    return PICK(ADDRESS);
}

static void spoil_port_mask(struct port *port, struct random *random)
{
    static const uint32_t ONES[] = {0, 7, 31, 32};

    switch (random_below(random, 4)) {
    case 0:
        port->mask = no_mask(random);
        break;
    case 1:
        port->mask = world_mask(PICK(ONES));
        break;
    case 2: /* not 24 ones in net 10 */
        port->address = 0x0a040902;
        port->mask = world_mask(random_one_in(random, 2) ? 23 : 25);
        break;
    default: /* host bits all ones, and not a net broadcast */
        port->address = 0xac1004ff;
        port->mask = world_mask(24);
    }
}

static void spoil_port(struct port *port, struct random *random)
{
    uint32_t chosen = ways(4, random);

    if (chosen & 1)
        port->number = beyond(WORLD_PORTS, random);
    if (chosen & 2)
        spoil_port_mask(port, random);
    if (chosen & 4)
        port->address = not_unicast(random);
    if (chosen & 8)
        port->mtu = random_one_in(random, 2)
                        ? 0
                        : beyond(WORLD_MOST_LENGTH + 1, random);
}

static struct port choose_port(const struct world *world, uint32_t number,
                               struct random *random)
{
    struct port port = {number, world_unicast(world, random), 0, 0,
                        world->mission};

    port.mask = port_mask(port.address, random);
    port.mtu = choose_mtu(random);
    return port;
}

static void write_port(struct world *world, const struct port *port,
                       bool noted)
{
    const uint32_t numbers[] = {port->number, port->address, port->mask,
                                port->mtu, port->mission};

    line_numbers(CALL_SET_PORT, numbers);
    if (noted)
        world_note_port(world, numbers);
}

void history_set_port(struct world *world, uint32_t number,
                      struct random *random)
{
    struct port port = choose_port(world, number, random);

    write_port(world, &port, true);
}

void history_refused_port(struct world *world, struct random *random)
{
    struct port port =
        choose_port(world, random_below(random, WORLD_PORTS), random);

    spoil_port(&port, random);
    write_port(world, &port, false);
}
