/*
 * setting.c: a setting of any kind in the midst of a history: half of those of
 * ports and places are to be refused, and some places are emptied. A place just
 * beyond the last is emptied now and then too, which is refused.
 */
#include "setting.h"

#include "entries.h"
#include "line.h"
#include "ports.h"
#include "routes.h"
#include "shared/floods.h"

static void clear_route(struct world *world, struct random *random)
{
    uint32_t which = random_below(random, WORLD_ROUTES + 4);

    if (which < WORLD_ROUTES)
        world->routes[which].filled = false;
    line_number(CALL_CLEAR_ROUTE, which < WORLD_ROUTES
                                      ? world->routes[which].place
                                      : world->places + which - WORLD_ROUTES);
}

static void clear_entry(const struct world *world, enum call call,
                        uint32_t *entries, uint32_t count,
                        struct random *random)
{
    uint32_t place = random_below(random, count + 4);

    if (place < count)
        entries[place] = 0;
    line_asked(call, place, world->mission);
}

static void any_router(struct world *world, struct random *random)
{
    static const uint32_t ROUTER[] = {0, 1, 1, 1, 2, 0xffffffff};

    (void)world;
    line_number(CALL_SET_ROUTER, PICK(ROUTER));
}

void history_set_lifetime(struct world *world, struct random *random)
{
    world->lifetime = floods_lifetime(world, random);
    line_number(CALL_SET_LIFETIME, world->lifetime);
}

void history_set_echo_drop(struct world *world, struct random *random)
{
    static const uint32_t DROP[] = {0, 0, 0, 1, 1, 2, 0xffffffff};

    (void)world;
    line_number(CALL_SET_ECHO_DROP, PICK(DROP));
}

static void any_port(struct world *world, struct random *random)
{
    if (random_one_in(random, 2))
        history_set_port(world, random_below(random, WORLD_PORTS), random);
    else
        history_refused_port(world, random);
}

typedef void good_setting(struct world *world, uint32_t place,
                          struct random *random);
typedef void any_setting(struct world *world, struct random *random);

/* One of so many places is set, or a setting is to be refused. */
static void any_place(good_setting *good, uint32_t places,
                      any_setting *refused, struct world *world,
                      struct random *random)
{
    if (random_one_in(random, 2))
        good(world, random_below(random, places), random);
    else
        refused(world, random);
}

static void any_route(struct world *world, struct random *random)
{
    any_place(history_set_route, WORLD_ROUTES, history_refused_route, world,
              random);
}

static void any_group(struct world *world, struct random *random)
{
    any_place(history_set_group, WORLD_GROUPS, history_refused_group, world,
              random);
}

static void any_path(struct world *world, struct random *random)
{
    any_place(history_set_path, WORLD_PATHS, history_refused_path, world,
              random);
}

static void any_clear(struct world *world, struct random *random)
{
    switch (random_below(random, 4)) {
    case 0:
        clear_entry(world, CALL_CLEAR_GROUP, world->groups[world->mission],
                    WORLD_GROUPS, random);
        break;
    case 1:
        clear_entry(world, CALL_CLEAR_PATH, world->paths[world->mission],
                    WORLD_PATHS, random);
        break;
    default:
        clear_route(world, random);
    }
}

void history_setting(struct world *world, struct random *random)
{
    static any_setting *const KINDS[] = {
        any_router, any_port, any_port, any_port,  any_route,
        any_route,  any_group, any_path, any_clear, history_record,
        history_record, history_set_lifetime, history_set_echo_drop};

    PICK(KINDS)(world, random);
}
