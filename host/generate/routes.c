/*
 * routes.c: `set_route`, `record` and `records` lines. A setting is chosen
 * good. Where it is to be refused, one field or two are spoiled, each in a way
 * that has its own number.
 *
 * The awkward case is a list that no call of the operator would have written:
 * records that are refused, the same entry at two places, of which the lower is
 * not up, filled numbers that are neither 0 nor 1. Only `record` writes such.
 */
#include "routes.h"

#include "line.h"
#include "ways.h"

static struct world_route choose_route(const struct world *world,
                                       uint32_t place, struct random *random)
{
    static const uint32_t ONES[] = {0, 8, 16, 22, 24, 24, 28, 31, 32, 32};
    static const uint32_t AVAILABILITY[] = {1, 1, 1, 1, 1, 1, 1, 2, 3, 4};
    static const uint32_t CAPABILITIES[] = {0, 0, 1, 2, 4};
    struct world_route route = {.place = place, .mission = world->mission};

    route.mask = world_mask(PICK(ONES));
    route.prefix = world_unicast(world, random) & route.mask;
    route.port = world_port(world, random);
    route.availability = PICK(AVAILABILITY);
    route.capabilities = PICK(CAPABILITIES);
    return route;
}

/* The entry of another place, where one has any, with a port of its mission. */
static void same_route(struct world *world, struct world_route *route,
                       struct random *random)
{
    uint32_t other = random_below(random, WORLD_ROUTES);
    uint32_t whose = world->mission;

    for (uint32_t tries = 0; tries < WORLD_ROUTES; tries++) {
        other = (other + 1) % WORLD_ROUTES;
        if (!world->routes[other].filled ||
            world->routes[other].place == route->place)
            continue;
        route->prefix = world->routes[other].prefix;
        route->mask = world->routes[other].mask;
        route->mission = world->routes[other].mission;
        world->mission = route->mission;
        route->port = world_port(world, random);
        world->mission = whose;
        return;
    }
}

/* One that is no mission's, where there is one. */
static uint32_t free_port(const struct world *world, struct random *random)
{
    uint32_t port = random_below(random, WORLD_PORTS);

    for (uint32_t tries = 0;
         tries < WORLD_PORTS && world_has(world_set_up(world), port); tries++)
        port = (port + 1) % WORLD_PORTS;
    return port;
}

static void spoil_codes(struct world_route *route, uint32_t chosen,
                        struct random *random)
{
    if (chosen & 1)
        route->availability = random_one_in(random, 2) ? 0
                                                       : beyond(5, random);
    if (chosen & 2)
        route->capabilities = random_one_in(random, 2) ? 3
                                                       : beyond(5, random);
    if (chosen & 4) /* the port is then the other mission's */
        route->mission = 1 - route->mission;
}

static void spoil_route(struct world *world, struct world_route *route,
                        struct random *random)
{
    uint32_t chosen = ways(8, random);

    if (chosen & 1)
        same_route(world, route, random);
    if (chosen & 2)
        route->place = beyond(world->places, random);
    if (chosen & 4)
        route->port = random_one_in(random, 2) ? beyond(WORLD_PORTS, random)
                                               : free_port(world, random);
    if (chosen & 8) {
        route->mask = no_mask(random);
        route->prefix &= route->mask;
    }
    if (chosen & 16) {
        route->mask = world_mask(random_below(random, 32));
        route->prefix |= ~route->mask & (0u - (~route->mask & 1));
    }
    spoil_codes(route, chosen >> 5, random);
}

/* At the place where the history writes it, whatever the line says. */
static void note_route(struct world *world, uint32_t which,
                       const struct world_route *route)
{
    uint32_t place = world->routes[which].place;

    world->routes[which] = *route;
    world->routes[which].filled = true;
    world->routes[which].place = place;
}

static void write_route(const struct world_route *route)
{
    const uint32_t numbers[] = {
        route->place,        route->prefix,       route->mask,   route->port,
        route->availability, route->capabilities, route->mission};

    line_numbers(CALL_SET_ROUTE, numbers);
}

void history_set_route(struct world *world, uint32_t which,
                       struct random *random)
{
    struct world_route route =
        choose_route(world, world->routes[which].place, random);

    note_route(world, which, &route);
    write_route(&route);
}

void history_refused_route(struct world *world, struct random *random)
{
    uint32_t which = random_below(random, WORLD_ROUTES);
    struct world_route route =
        choose_route(world, world->routes[which].place, random);

    spoil_route(world, &route, random);
    write_route(&route);
}

/* ---- The list as it stands ----------------------------------------------- */

/* A line has eight bits for a code. */
static uint32_t code(uint32_t number)
{
    return number < 255 ? number : 255;
}

static void write_record(const struct world_route *route,
                         struct random *random)
{
    static const uint32_t FILLED[] = {1, 1, 1, 1, 1, 1, 0, 2, 255, 0xffffffff};
    const uint32_t numbers[] = {0,
                                route->place,
                                PICK(FILLED),
                                route->prefix,
                                route->mask,
                                code(route->port),
                                code(route->availability),
                                code(route->capabilities),
                                route->mission};

    line_numbers(LINE_RECORD, numbers);
}

void history_record(struct world *world, struct random *random)
{
    uint32_t which = random_below(random, WORLD_ROUTES);
    struct world_route route =
        choose_route(world, world->routes[which].place, random);

    switch (random_below(random, 4)) {
    case 0:
        spoil_route(world, &route, random);
        note_route(world, which, &route);
        break;
    case 1:
        note_route(world, which, &route);
        break;
    default:
        same_route(world, &route, random);
    }
    write_record(&route, random);
}

void history_records(struct world *world, uint32_t count,
                     struct random *random)
{
    const uint32_t numbers[] = {0, count};

    world_begin_list(world, count < WORLD_PLACES ? count : WORLD_PLACES,
                     random);
    line_numbers(LINE_RECORDS, numbers);
}
