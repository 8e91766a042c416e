/*
 * world.c: drawing addresses and ports of the small world, and masks. Three
 * domains of net 10 and four other networks are enough for an address to be in
 * a port's own network, in another that a route leads to, or in none.
 */
#include "world.h"

#include <stddef.h>
#include <string.h>

static const uint32_t DOMAIN[] = {0x0a040900, 0x0a040800, 0x0a070100};
static const uint32_t NETWORK[] = {0xac100400, 0xac100500, 0xc0000200,
                                   0x2c010200};

static uint32_t domain(const struct world *world, struct random *random)
{
    return world->nets == ONE_DOMAIN ? DOMAIN[0] : PICK(DOMAIN);
}

static bool in_net_10(const struct world *world, struct random *random)
{
    if (world->nets == ALL_NETS)
        return random_one_in(random, 2);
    return world->nets != INTERNET;
}

uint32_t world_unicast(const struct world *world, struct random *random)
{
    /* 3, 7 and 15 are broadcasts of small subnets, and addresses elsewhere. */
    static const uint8_t LAST[] = {1, 2, 3, 7, 13, 14, 15, 15, 15, 20};
    uint32_t network;

    if (in_net_10(world, random)) {
        network = domain(world, random);
        return network | 2 * random_below(random, 10);
    }
    network = PICK(NETWORK);
    return network | PICK(LAST);
}

uint32_t world_multicast(const struct world *world, struct random *random)
{
    uint32_t network;

    if (in_net_10(world, random)) {
        network = domain(world, random);
        return network | (2 * random_below(random, 10) + 1);
    }
    network = 0xe0000000u + (random_below(random, 16) << 24);
    return network + random_below(random, 2);
}

uint32_t world_path(struct random *random)
{
    static const uint8_t LAST[] = {0, 1, 2, 14, 15, 253, 255};
    uint32_t network = PICK(DOMAIN);

    return network | PICK(LAST);
}

uint32_t world_invalid(struct random *random)
{
    static const uint32_t INVALID[] = {0x0a0409fe, 0x00000000, 0x7f000001,
                                       0xf0000001, 0xfffffffe, 0x0afffffe};

    return PICK(INVALID);
}

/* The first and the last place, and others between them. */
void world_begin_list(struct world *world, uint32_t places,
                      struct random *random)
{
    world->places = places;
    memset(world->routes, 0, sizeof world->routes);
    for (uint32_t i = 1; i < WORLD_ROUTES && places > 0; i++)
        world->routes[i].place = i == 1 ? places - 1
                                        : random_below(random, places);
}

void world_begin(struct world *world, enum nets nets, uint32_t places,
                 struct random *random)
{
    memset(world, 0, sizeof *world);
    world->nets = nets;
    world_begin_list(world, places, random);
}

void world_note_port(struct world *world, const uint32_t *n)
{
    if (world_has(world_set_up(world), n[0]))
        return;
    world->ports_of[n[4]] |= 1u << n[0];
    world->ports[n[0]].address = n[1];
    world->ports[n[0]].mask = n[2];
    world->ports[n[0]].mtu = n[3];
}

uint32_t world_routed(const struct world *world, struct random *random)
{
    uint32_t place = random_below(random, WORLD_ROUTES);

    if (!world->routes[place].filled)
        return world_unicast(world, random);
    return world->routes[place].prefix |
           (world_unicast(world, random) & ~world->routes[place].mask);
}

const struct world_route *world_route(const struct world *world,
                                      uint32_t address)
{
    const struct world_route *best = NULL;

    for (uint32_t i = 0; i < WORLD_ROUTES; i++) {
        const struct world_route *route = &world->routes[i];

        if (route->filled && (address & route->mask) == route->prefix &&
            route->mission == world->mission && route->availability == 1 &&
            route->port < WORLD_PORTS &&
            (best == NULL || route->mask > best->mask))
            best = route;
    }
    return best;
}

uint32_t world_port(const struct world *world, struct random *random)
{
    uint32_t port = random_below(random, WORLD_PORTS);

    for (uint32_t tries = 0; tries < WORLD_PORTS; tries++) {
        if (world_has(world_own(world), port))
            return port;
        port = (port + 1) % WORLD_PORTS;
    }
    return 0;
}

uint32_t world_mask(uint32_t ones)
{
    return ones == 0 ? 0 : 0xffffffffu << (32 - ones);
}

uint32_t world_host_bits(uint32_t address)
{
    if (address >> 24 < 128)
        return 0xffffff;
    return address >> 24 < 192 ? 0xffff : 0xff;
}
