/*
 * entries.c: `set_group` and `set_path` lines, which differ in their last
 * number alone: a second set of ports, or a yes or no.
 *
 * A setting is chosen good. Where it is to be refused, one field or two are
 * spoiled, each in a way that has its own number, so that every number comes
 * at every call that has it, and two at once try the order 21, 25, 22, 24, 23,
 * 35.
 */
#include "entries.h"

#include "line.h"
#include "ways.h"

/* A set that names a port not set up for the mission, or one over 7. */
static uint32_t bad_set(const struct world *world, struct random *random)
{
    uint32_t port = random_below(random, WORLD_PORTS);
    uint32_t set = world_own(world) & random_below(random, 256);

    if (world_has(world_own(world), port))
        return set | 256u << random_below(random, 24);
    return set | 1u << port;
}

/* A group, or a path, which has a yes or no in place of a second set. */
struct entry {
    uint32_t place, address, send, last;
};

static void write_entry(const struct world *world, enum call call,
                        const struct entry *entry)
{
    const uint32_t numbers[] = {entry->place, entry->address, entry->send,
                                entry->last, world->mission};

    line_numbers(call, numbers);
}

/* Often no port, or the port of one number alone. */
static uint32_t choose_set(const struct world *world, struct random *random)
{
    static const uint32_t SMALL[] = {0, 1, 2, 4, 8};

    return world_own(world) & (random_one_in(random, 4)
                                   ? PICK(SMALL)
                                   : random_below(random, 256));
}

/* An entry of another place, or its address unchanged where there is none. */
static uint32_t same_elsewhere(const uint32_t *entries, uint32_t count,
                               const struct entry *entry,
                               struct random *random)
{
    for (uint32_t tries = 0; tries < 3 * count; tries++) {
        uint32_t other = random_below(random, count);

        if (entries[other] != 0 && other != entry->place)
            return entries[other];
    }
    return entry->address;
}

/* The ways that groups and paths share: 1, 2 and 4 of those chosen. */
static void spoil_entry(const struct world *world, const uint32_t *entries,
                        uint32_t count, uint32_t chosen, struct entry *entry,
                        struct random *random)
{
    if (chosen & 1)
        entry->address = same_elsewhere(entries, count, entry, random);
    if (chosen & 2)
        entry->place = beyond(count, random);
    if (chosen & 4)
        entry->send = bad_set(world, random);
}

static struct entry choose_group(const struct world *world, uint32_t place,
                                 struct random *random)
{
    struct entry group = {.place = place};

    group.address = world_multicast(world, random);
    group.send = choose_set(world, random);
    group.last = choose_set(world, random);
    return group;
}

void history_set_group(struct world *world, uint32_t place,
                       struct random *random)
{
    struct entry group = choose_group(world, place, random);

    world->groups[world->mission][place] = group.address;
    write_entry(world, CALL_SET_GROUP, &group);
}

void history_refused_group(struct world *world, struct random *random)
{
    uint32_t chosen = ways(5, random);
    struct entry group =
        choose_group(world, random_below(random, WORLD_GROUPS), random);

    spoil_entry(world, world->groups[world->mission], WORLD_GROUPS, chosen,
                &group, random);
    if (chosen & 8)
        group.last = bad_set(world, random);
    if (chosen & 16)
        group.address = random_one_in(random, 2)
                            ? world_unicast(world, random)
                            : world_invalid(random);
    write_entry(world, CALL_SET_GROUP, &group);
}

static struct entry choose_path(const struct world *world, uint32_t place,
                                struct random *random)
{
    struct entry path = {.place = place};

    path.address = world_path(random);
    path.send = choose_set(world, random);
    path.last = random_below(random, 2);
    return path;
}

void history_set_path(struct world *world, uint32_t place,
                      struct random *random)
{
    struct entry path = choose_path(world, place, random);

    world->paths[world->mission][place] = path.address;
    write_entry(world, CALL_SET_PATH, &path);
}

void history_refused_path(struct world *world, struct random *random)
{
    uint32_t chosen = ways(5, random);
    struct entry path =
        choose_path(world, random_below(random, WORLD_PATHS), random);

    spoil_entry(world, world->paths[world->mission], WORLD_PATHS, chosen,
                &path, random);
    if (chosen & 8)
        path.address = random_one_in(random, 2) ? 0x0a0409fe : 0xac100402;
    if (chosen & 16)
        path.last = beyond(2, random);
    write_entry(world, CALL_SET_PATH, &path);
}
