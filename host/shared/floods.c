/*
 * floods.c: pairs, seconds and lifetimes. Most timestamps have a small time, so
 * that the same number comes in several formats and P-fields, which are
 * different pairs.
 *
 * The awkward case is a second far ahead, which shuts out what comes behind it:
 * the clock then stays there, and at the greatest second it stands still, so
 * that the rest of the history is not refused.
 */
#include "floods.h"

#include <string.h>

#define FLOODED 3 /* of the routing requirements */

static struct world_pair draw_pair(const struct world *world,
                                   struct random *random)
{
    /* 3 octets of time in three ways, the fewest and the most. */
    static const uint8_t P_FIELDS[] = {0x02, 0x08, 0x12, 0x00, 0x0f, 0xff};
    struct world_pair pair = {.source = world_unicast(world, random)};
    struct form form = {0};

    pair.format = 1 + random_below(random, 3);
    pair.p_field = PICK(P_FIELDS);
    if (random_one_in(random, 4)) {
        random_octets(random, pair.time, 7);
        return pair;
    }
    form.stamp_format = pair.format;
    form.p_field = pair.p_field;
    pair.time[form_time_octets(&form) - 1] = (uint8_t)random_below(random, 4);
    return pair;
}

void floods_begin(struct world *world, uint32_t pairs, uint32_t of_100,
                  struct random *random)
{
    world->pair_count = pairs < WORLD_PAIRS ? pairs : WORLD_PAIRS;
    world->floods = of_100;
    for (uint32_t i = 0; i < world->pair_count; i++)
        world->pairs[i] = draw_pair(world, random);
}

bool floods_next(const struct world *world, struct random *random)
{
    return random_below(random, 100) < world->floods;
}

void floods_form(const struct world *world, struct form *form,
                 struct random *random)
{
    const struct world_pair *pair =
        &world->pairs[random_below(random, world->pair_count)];

    form->has_qos = true;
    form->routing = FLOODED;
    if (random_one_in(random, 16))
        return; /* with whatever timestamp it has, or none */
    form->stamp_format = pair->format;
    form->p_field = pair->p_field;
    memcpy(form->time, pair->time, sizeof form->time);
    if (form->has_source)
        form_put_address(form, form->source, pair->source);
}

/* Steps of the clock: none, a few, and hardly ever a great many. */
static uint32_t draw_step(uint32_t left, struct random *random)
{
    if (random_one_in(random, 2500))
        return left - random_below(random, 3);
    if (random_one_in(random, 500))
        return 1000 + random_below(random, 1000);
    return random_one_in(random, 3) ? 1 + random_below(random, 3) : 0;
}

uint32_t floods_second(struct world *world, struct random *random)
{
    uint32_t *last = &world->seconds[world->mission];
    uint32_t left = UINT32_MAX - *last;
    uint32_t step = draw_step(left, random);

    if (*last > 0 && random_one_in(random, 16))
        return *last - 1 - random_below(random, *last < 5 ? *last : 5);
    *last += step < left ? step : left;
    if (random_one_in(random, 4))
        world->some_second[world->mission] = *last;
    return *last;
}

uint32_t floods_sweep(struct world *world, struct random *random)
{
    uint32_t mission = world->mission;
    uint64_t edge = (uint64_t)world->some_second[mission] + world->lifetime +
                    random_below(random, 3);

    if (edge < world->seconds[mission] || edge > UINT32_MAX ||
        random_one_in(random, 3))
        return floods_second(world, random);
    world->seconds[mission] = (uint32_t)edge;
    return (uint32_t)edge;
}

uint32_t floods_lifetime(const struct world *world, struct random *random)
{
    static const uint32_t LIFETIMES[] = {0, 0, 1, 1, 2, 3, 5, 8, 20, 1000,
                                         0xfffffffe, 0xffffffff};

    if (world->pair_count == WORLD_PAIRS && !random_one_in(random, 4))
        return 0xffffffff;
    return PICK(LIFETIMES);
}
