/*
 * draw.c: calls drawn at random. A setting is drawn good for the world as it
 * stands, and one in four has then a number or two of it replaced by one that
 * means something elsewhere: a place just beyond the last, an address, a mask,
 * a number of all ones.
 */
#include "draw.h"

#include <string.h>

#include "batches.h"
#include "messages.h"
#include "numbers.h"
#include "octets.h"
#include "shared/echoes.h"
#include "shared/floods.h"

static uint32_t draw_set(const struct world *world, struct random *random)
{
    return world_own(world) & random_below(random, 256);
}

static void draw_port(uint32_t *n, const struct world *world,
                      struct random *random)
{
    static const uint32_t ONES[] = {8, 16, 22, 24, 24, 28, 30};
    static const uint32_t MTU[] = {8191, 8191, 8191, 8190, 300, 64, 24, 1};

    n[0] = random_below(random, HJ_PORTS);
    n[1] = world_unicast(world, random);
    n[2] = world_mask(n[1] >> 24 == 10 ? 24 : PICK(ONES));
    n[3] = PICK(MTU);
    n[4] = world->mission;
}

static void draw_route(uint32_t *n, const struct world *world,
                       struct random *random)
{
    static const uint32_t ONES[] = {0, 8, 16, 22, 24, 24, 28, 31, 32, 32};
    static const uint32_t AVAILABLE[] = {1, 1, 1, 1, 1, 1, 2, 3, 4};
    static const uint32_t CAPABLE[] = {0, 1, 2, 4};

    n[0] = world->routes[random_below(random, WORLD_ROUTES)].place;
    n[2] = world_mask(PICK(ONES));
    n[1] = world_unicast(world, random) & n[2];
    n[3] = world_port(world, random);
    n[4] = PICK(AVAILABLE);
    n[5] = PICK(CAPABLE);
    n[6] = world->mission;
}

uint32_t soak_places(enum call which, const struct world *world)
{
    static const uint32_t PLACES[CALL_OBJECTS] = {
        [ON_BOARD] = HJ_GROUPS, /* any: the number is not looked at */
        [ON_MISSION] = HJ_MISSIONS, [ON_PORT] = HJ_PORTS,
        [ON_GROUP] = HJ_GROUPS,     [ON_PATH] = HJ_PATHS,
        [ON_COUNTER] = HJ_COUNTERS, [ON_QUEUE] = HJ_PORTS,
        [ON_PAIR] = HJ_PAIRS,
        [ON_ADDRESS] = WORLD_ROUTES /* the prefix of each */};

    return call_facts[which].object == ON_ROUTE
               ? world->places
               : PLACES[call_facts[which].object];
}

static void spoil(struct soak_call *call, const struct world *world,
                  struct random *random)
{
    uint32_t times = 1 + random_below(random, 2);

    while (times-- > 0) {
        uint32_t *number =
            call->numbers + random_below(random, CALL_MOST_NUMBERS);

        *number = soak_odd_number(world, random);
    }
}

void soak_draw_setting(struct soak_call *call, enum call which,
                       struct world *world, struct random *random)
{
    uint32_t *n = call->numbers;

    call->which = which;
    n[0] = random_below(random, soak_places(which, world) + 1);
    if (which == CALL_FRESH_MISSION) {
        n[0] = world->mission;
    } else if (which == CALL_SET_ROUTER) {
        n[0] = !random_one_in(random, 8);
    } else if (which == CALL_SET_LIFETIME) {
        n[0] = floods_lifetime(world, random);
    } else if (which == CALL_SET_ECHO_DROP) {
        n[0] = random_one_in(random, 8);
    } else if (which == CALL_SWEEP) {
        n[0] = floods_sweep(world, random);
    } else if (which == CALL_SET_PORT) {
        draw_port(n, world, random);
    } else if (which == CALL_SET_ROUTE) {
        draw_route(n, world, random);
    } else if (which == CALL_SET_GROUP) {
        n[1] = world_multicast(world, random);
        n[2] = draw_set(world, random);
        n[3] = draw_set(world, random);
    } else if (which == CALL_SET_PATH) {
        n[1] = world_path(random);
        n[2] = draw_set(world, random);
        n[3] = random_below(random, 2);
    }
}

static void draw_receive(struct soak_call *call, struct world *world,
                         struct random *random)
{
    soak_draw_arrival(call, world, random);
    call->room = HJ_OUTPUT_ROOM;
    if (random_one_in(random, 8))
        call->room +=
            random_below(random, SOAK_MOST_ROOM - HJ_OUTPUT_ROOM + 1);
    else if (random_one_in(random, 24))
        call->room = random_one_in(random, 3)
                         ? HJ_OUTPUT_ROOM - 1
                         : random_below(random, HJ_OUTPUT_ROOM);
    soak_draw_octets(call, world, random);
}

static void draw_echo(struct soak_call *call, const struct world *world,
                      struct random *random)
{
    static struct datagram datagram;

    call->numbers[0] = random_one_in(random, 24)
                           ? soak_odd_number(world, random)
                           : world_port(world, random);
    call->numbers[1] = random_below(random, 65536);
    call->room = echoes_room(world, call->numbers[0], random);
    echoes_request(world, call->numbers[0], &datagram, random);
    call->count = datagram.count;
    memcpy(call->octets, datagram.octets, datagram.count);
}

/* A port, a place or a counter, of which some are beyond the last; or an
 * address, mostly one that a route is for. */
static void draw_look(struct soak_call *call, const struct world *world,
                      struct random *random)
{
    call->numbers[0] =
        random_below(random, soak_places(call->which, world) + 1);
    call->numbers[1] = random_below(random, HJ_ROUTE_NUMBERS + 1);
    if (call->which == CALL_TAKE && !random_one_in(random, 12))
        call->numbers[0] = world_port(world, random);
    if (call->which == CALL_SEARCH)
        call->numbers[0] = world_routed(world, random);
    if (random_one_in(random, 24))
        call->numbers[0] = soak_odd_number(world, random);
}

static void draw_stateless(struct soak_call *call, const struct world *world,
                           struct random *random)
{
    call->numbers[0] = random_one_in(random, 2)
                           ? soak_draw_edge(random)
                           : soak_odd_number(world, random);
    call->room = random_below(random, SOAK_MOST_ROOM + 1);
    if (call->which == CALL_BUILD)
        soak_draw_fields(call, world, random);
    else if (call->which == CALL_READ_ECHO)
        soak_draw_message(call, random);
    else if (call->which == CALL_BUILD_REQUEST ||
             call->which == CALL_BUILD_REPLY)
        soak_draw_build(call, world, random);
    else
        soak_draw_octets(call, world, random);
}

void soak_draw_call(struct soak_call *call, enum call which,
                    struct world *world, struct random *random)
{
    call->which = which;
    call->count = 0;
    call->room = 0;
    memset(call->numbers, 0, sizeof call->numbers);
    if (!call_has_state(which)) {
        draw_stateless(call, world, random);
    } else if (call_sets(which)) {
        soak_draw_setting(call, which, world, random);
        if (random_one_in(random, 4))
            spoil(call, world, random);
    } else if (which == CALL_RECEIVE) {
        draw_receive(call, world, random);
    } else if (which == CALL_RECEIVE_MANY) {
        soak_draw_batch(call, world, random);
    } else if (which == CALL_ECHO) {
        draw_echo(call, world, random);
    } else {
        draw_look(call, world, random);
    }
}

/* The place of a list that was written or emptied. */
static void note_route(const struct soak_call *call, struct world *world,
                       bool filled)
{
    const uint32_t *n = call->numbers;
    struct world_route route = {filled, n[0], n[1], n[2],
                                n[3],   n[4], n[5], n[6]};

    for (uint32_t i = 0; i < WORLD_ROUTES; i++) {
        if (world->routes[i].place == n[0])
            world->routes[i] = route;
    }
}

/* A place that was written or emptied. */
static void note_place(const struct soak_call *call, struct world *world)
{
    const uint32_t *n = call->numbers;
    bool filled = call_facts[call->which].kind == KIND_SETTING;

    switch (call_facts[call->which].object) {
    case ON_GROUP:
        world->groups[call->mission][n[0]] = filled ? n[1] : 0;
        break;
    case ON_PATH:
        world->paths[call->mission][n[0]] = filled ? n[1] : 0;
        break;
    case ON_ROUTE:
        note_route(call, world, filled);
        break;
    default:
        break;
    }
}

void soak_note(const struct soak_call *call, struct world *world)
{
    if (call->which == CALL_FRESH_BOARD) {
        memset(world->ports_of, 0, sizeof world->ports_of);
        world->lifetime = 0;
    } else if (call->which == CALL_SET_LIFETIME) {
        world->lifetime = call->numbers[0];
    } else if (call->which == CALL_SWEEP) {
        world->seconds[call->mission] = call->numbers[0];
    } else if (call->which == CALL_FRESH_MISSION) {
        memset(world->groups[call->mission], 0, sizeof *world->groups);
        memset(world->paths[call->mission], 0, sizeof *world->paths);
    } else if (call->which == CALL_SET_PORT) {
        world_note_port(world, call->numbers);
    } else if (call_sets(call->which)) {
        note_place(call, world);
    }
}

void soak_draw_record(hj_record *record, const struct world *world,
                      struct random *random)
{
    static const uint32_t FILLED[] = {0, 1, 1, 1, 1, 2, 255, 0xffffffff};
    uint32_t n[CALL_MOST_NUMBERS];
    uint32_t which = random_below(random, WORLD_ROUTES);

    draw_route(n, world, random);
    n[0] = PICK(FILLED);
    if (world->routes[which].filled && random_one_in(random, 2)) {
        n[1] = world->routes[which].prefix;
        n[2] = world->routes[which].mask;
    }
    if (random_one_in(random, 3))
        n[random_below(random, HJ_ROUTE_NUMBERS)] =
            soak_odd_number(world, random);
    memcpy(record, n, sizeof *record);
}

void soak_draw_pair(uint32_t *words, const struct world *world,
                    struct random *random)
{
    const struct world_pair *pair =
        &world->pairs[random_below(random, world->pair_count)];
    struct form form = {.stamp_format = pair->format,
                        .p_field = pair->p_field};
    unsigned octets = form_time_octets(&form);
    uint64_t time = 0;

    for (unsigned i = 0; i < octets; i++)
        time = time << 8 | pair->time[i];
    words[0] = pair->format;
    words[1] = pair->source;
    words[2] = (pair->format == 2 ? (uint32_t)pair->p_field << 24 : 0) |
               (uint32_t)(time >> 32);
    words[3] = (uint32_t)time;
}
