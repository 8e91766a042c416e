/*
 * history.c: histories of the whole relay. A history is `new`, the settings of
 * a node of some shape, and then datagrams, by themselves and in batches, echo
 * requests, takes, sweeps and changes of settings, with the counters, the
 * queues and the pairs looked at, and routes searched for, now and then and at
 * its end.
 *
 * Two missions share the node, and their calls come in any order. The shapes
 * say how many of the ports are the second one's; where it has none, its calls
 * still come now and then.
 *
 * The awkward cases need a history to lean their way for long: a queue is full
 * only where few entries are taken, and the places of pairs only where many
 * pairs come and are hardly swept, which the shapes see to. A list that is
 * short is made at the start, one that is too long in the midst of a history,
 * which writes its routes anew afterwards.
 */
#include "history.h"

#include "arrivals.h"
#include "batches.h"
#include "echoes.h"
#include "entries.h"
#include "line.h"
#include "ports.h"
#include "routes.h"
#include "setting.h"
#include "shared/floods.h"
#include "shared/world.h"

#define QUEUE 32
#define CALLS 270
#define SEARCHES 16 /* at the end */

struct shape {
    uint32_t router;
    enum nets nets;
    uint32_t ports;    /* set up at first */
    uint32_t second;   /* of them the second mission's */
    uint32_t routes;   /* written at first, so for groups and paths */
    uint32_t groups;
    uint32_t paths;
    uint32_t takes;    /* of 100 calls, so for settings and sweeps */
    uint32_t settings;
    uint32_t sweeps;
    uint32_t floods; /* of 100 datagrams */
    uint32_t pairs;  /* that they are drawn from */
    uint32_t echoes; /* of 100 datagrams, those that an answer is asked for */
};

static const struct shape SHAPES[] = {
    /* a router in all networks */
    {1, ALL_NETS, 6, 2, 16, 8, 8, 20, 4, 2, 6, 12, 12},
    /* in one domain */
    {1, ONE_DOMAIN, 6, 3, 16, 8, 8, 20, 3, 2, 6, 12, 12},
    /* between domains */
    {1, DOMAINS, 7, 3, 16, 8, 8, 20, 3, 2, 6, 12, 12},
    /* outside net 10 */
    {1, INTERNET, 4, 0, 12, 6, 4, 20, 3, 1, 6, 12, 24},
    /* hardly emptied: queues fill */
    {1, ONE_DOMAIN, 3, 0, 12, 8, 8, 2, 1, 2, 10, 12, 12},
    /* every place written */
    {1, DOMAINS, 8, 4, 64, 16, 16, 6, 1, 1, 4, 12, 12},
    /* one port alone for each */
    {1, ALL_NETS, 2, 1, 8, 8, 6, 20, 0, 2, 6, 12, 6},
    /* a host */
    {0, ALL_NETS, 4, 1, 6, 6, 6, 10, 3, 1, 8, 12, 20},
    /* settings above all */
    {1, ALL_NETS, 4, 2, 6, 6, 6, 10, 60, 1, 6, 12, 12},
    /* two ports, hardly emptied */
    {1, DOMAINS, 4, 2, 8, 8, 8, 1, 1, 1, 4, 12, 12},
    /* floods above all, swept */
    {1, ONE_DOMAIN, 5, 2, 6, 4, 4, 25, 2, 10, 70, 24, 4},
    /* more pairs than places, hardly swept */
    {1, DOMAINS, 4, 0, 4, 4, 4, 25, 0, 0, 95, WORLD_PAIRS, 0},
    /* echo requests above all */
    {1, DOMAINS, 6, 2, 16, 4, 4, 25, 3, 1, 4, 12, 80},
};

/* Whose call comes next. */
static void draw_mission(const struct shape *shape, struct world *world,
                         struct random *random)
{
    world->mission = random_one_in(random, shape->second > 0 ? 3 : 12);
}

/* At the prefixes of routes: the first address, the one before it, the last
 * and the one behind that; or somewhere under one; or anywhere. */
static uint32_t searched_address(const struct world *world,
                                 struct random *random)
{
    uint32_t place = random_below(random, WORLD_ROUTES);
    uint32_t first = world->routes[place].prefix;
    uint32_t last = first | ~world->routes[place].mask;

    if (random_one_in(random, 8))
        return (uint32_t)random_number(random);
    if (!world->routes[place].filled || random_one_in(random, 2))
        return world_routed(world, random);
    switch (random_below(random, 4)) {
    case 0:
        return first;
    case 1:
        return first - 1;
    case 2:
        return last;
    default:
        return last + 1;
    }
}

static void sweep(struct world *world, struct random *random)
{
    line_asked(CALL_SWEEP, floods_sweep(world, random), world->mission);
}

/* Counters, queues and pairs, which are then swept. */
static void look_at_mission(struct world *world, struct random *random)
{
    line_number(CALL_COUNTER, world->mission);
    for (uint32_t port = 0; port <= WORLD_PORTS; port++)
        line_asked(CALL_WAITING, port, world->mission);
    line_number(CALL_PAIR_WORD, world->mission);
    sweep(world, random);
    line_number(CALL_PAIR_WORD, world->mission);
}

static void look_at_all(const struct shape *shape, struct world *world,
                        struct random *random)
{
    for (world->mission = 0; world->mission < WORLD_MISSIONS;
         world->mission++)
        look_at_mission(world, random);
    for (uint32_t i = 0; i < SEARCHES; i++) {
        draw_mission(shape, world, random);
        line_asked(CALL_SEARCH, searched_address(world, random),
                   world->mission);
    }
}

/* Of both missions' routes, and some records as they stand among them. */
static void write_routes(const struct shape *shape, struct world *world,
                         struct random *random)
{
    for (uint32_t i = 0; i < shape->routes; i++) {
        draw_mission(shape, world, random);
        if (random_one_in(random, 8))
            history_record(world, random);
        else
            history_set_route(world, i, random);
    }
}

static void set_up(const struct shape *shape, struct world *world,
                   struct random *random)
{
    line_numbers(LINE_NEW, NULL);
    if (world->places != WORLD_PLACES)
        history_records(world, world->places, random);
    line_number(CALL_SET_ROUTER, shape->router);
    if (!random_one_in(random, 4))
        history_set_lifetime(world, random);
    for (uint32_t i = 0; i < shape->ports; i++) {
        world->mission = i >= shape->ports - shape->second;
        history_set_port(world, i, random);
    }
    write_routes(shape, world, random);
    for (uint32_t i = 0; i < shape->groups; i++) {
        draw_mission(shape, world, random);
        history_set_group(world, i, random);
    }
    for (uint32_t i = 0; i < shape->paths; i++) {
        draw_mission(shape, world, random);
        history_set_path(world, i, random);
    }
}

/* Takes more than can wait. */
static void drain(const struct world *world, struct random *random)
{
    uint32_t port = world_port(world, random);

    for (uint32_t i = 0; i <= QUEUE; i++)
        line_asked(CALL_TAKE, port, world->mission);
}

static void look_or_take(const struct shape *shape, struct world *world,
                         struct random *random)
{
    uint32_t some = random_below(random, WORLD_PORTS + 2);

    if (random_one_in(random, 16) && shape->takes > 2)
        drain(world, random);
    else if (random_one_in(random, 8))
        sweep(world, random);
    else if (random_one_in(random, 4))
        line_number(random_one_in(random, 2) ? CALL_COUNTER : CALL_PAIR_WORD,
                    world->mission);
    else if (random_one_in(random, 2))
        line_asked(CALL_WAITING, some, world->mission);
    else
        line_asked(CALL_TAKE, some, world->mission);
}

static void write_call(const struct shape *shape, struct world *world,
                       struct random *random)
{
    uint32_t draw = random_below(random, 100);

    draw_mission(shape, world, random);
    if (random_one_in(random, 25))
        look_or_take(shape, world, random);
    else if (random_one_in(random, 20))
        line_asked(CALL_SEARCH, searched_address(world, random),
                   world->mission);
    else if (draw < shape->takes)
        line_asked(CALL_TAKE, world_port(world, random), world->mission);
    else if (draw < shape->takes + shape->settings)
        history_setting(world, random);
    else if (draw < shape->takes + shape->settings + shape->sweeps)
        sweep(world, random);
    else if (random_below(random, 100) < shape->echoes)
        history_echo(world, random);
    else if (random_one_in(random, 24))
        history_batch(world, random);
    else
        history_receive(world, random);
}

/* A list over 512 records: each call that is lent it is refused. */
static void write_long_list(const struct shape *shape, struct world *world,
                            struct random *random)
{
    static const uint32_t COUNTS[] = {513, 513, 514, 600, 1023, 1024};

    history_records(world, PICK(COUNTS), random);
    for (uint32_t i = 0; i < 5; i++) {
        draw_mission(shape, world, random);
        history_record(world, random);
        history_receive(world, random);
        history_batch(world, random);
        history_echo(world, random);
        line_asked(CALL_SEARCH, searched_address(world, random),
                   world->mission);
        history_set_route(world, i, random);
        line_number(CALL_CLEAR_ROUTE, world->routes[i].place);
        line_asked(CALL_TAKE, world_port(world, random), world->mission);
    }
    history_records(world, WORLD_PLACES, random);
    write_routes(shape, world, random);
}

static void write_history(const struct shape *shape, struct random *random)
{
    static const uint32_t SHORT[] = {0, 1, 2, 40, 64, 100, 511};
    struct world world;
    bool is_short = random_one_in(random, 6);
    uint32_t at = random_below(random, 3 * CALLS);

    world_begin(&world, shape->nets, is_short ? PICK(SHORT) : WORLD_PLACES,
                random);
    floods_begin(&world, shape->pairs, shape->floods, random);
    set_up(shape, &world, random);
    for (uint32_t i = 0; i < CALLS; i++) {
        if (i == at)
            write_long_list(shape, &world, random);
        write_call(shape, &world, random);
    }
    look_at_all(shape, &world, random);
}

void write_histories(uint64_t count, struct random *random)
{
    for (uint64_t i = 0; i < count; i++)
        write_history(&SHAPES[i % (sizeof SHAPES / sizeof *SHAPES)], random);
}
