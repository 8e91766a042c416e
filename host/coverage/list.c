/*
 * list.c: what counts in the list as it stands, and what an address finds in
 * it. It is looked up plainly, record by record, so that no cleverness is
 * shared with the implementations that are compared.
 */
#include "view.h"

#define UP 1
#define OUT 4

static bool is_mask(uint32_t mask)
{
    return (~mask & (~mask + 1)) == 0;
}

static bool has_port(uint32_t set, uint32_t port)
{
    return port < VIEW_PORTS && (set >> port & 1) != 0;
}

uint32_t list_refusal(const struct view *view, const struct view_route *route)
{
    if (!has_port(view_set_up(view), route->port))
        return 21;
    if (!is_mask(route->mask) || (route->prefix & ~route->mask) != 0)
        return 22;
    if (route->availability < UP || route->availability > OUT ||
        route->capabilities == 3 || route->capabilities > 4 ||
        !has_port(view->missions[route->mission].ports, route->port))
        return 24;
    return 0;
}

static bool is_same(const struct view_route *one,
                    const struct view_route *other)
{
    return one->prefix == other->prefix && one->mask == other->mask &&
           one->mission == other->mission;
}

uint32_t list_holder(const struct view *view, const struct view_route *route)
{
    uint32_t place = 0;

    while (place < view->places &&
           !(view->routes[place].filled != 0 &&
             is_same(&view->routes[place], route) &&
             list_refusal(view, &view->routes[place]) == 0))
        place++;
    return place;
}

static bool counts(const struct view *view, const struct view_route *route)
{
    return list_refusal(view, route) == 0 &&
           &view->routes[list_holder(view, route)] == route;
}

/* Of those that are up, or of those that are not. */
static const struct view_route *longest(const struct view *view, uint32_t to,
                                        bool up)
{
    const struct view_route *best = NULL;

    for (uint32_t i = 0; i < view->places; i++) {
        const struct view_route *route = &view->routes[i];

        if (route->filled != 0 && (to & route->mask) == route->prefix &&
            route->mission == view->mission &&
            (route->availability == UP) == up && counts(view, route) &&
            (best == NULL || route->mask > best->mask))
            best = route;
    }
    return best;
}

/* A record that matches and is longer than the one found. */
static void note_longer(const struct view *view,
                        const struct view_route *route,
                        struct list_found *found)
{
    uint32_t refusal = list_refusal(view, route);
    bool owned = has_port(view->missions[view->mission].ports, route->port);

    if (refusal == 0 && route->mission != view->mission) {
        found->others |= counts(view, route);
    } else if (refusal == 0) {
        found->hidden |= route->availability == UP && !counts(view, route);
    } else if (route->mission == view->mission) {
        found->refused[refusal] |= owned || refusal != 24;
        found->by_port |= refusal == 24 && !owned;
    }
}

struct list_found list_find(const struct view *view, uint32_t to)
{
    struct list_found found = {.route = longest(view, to, true)};
    const struct view_route *best = found.route;

    found.over = longest(view, to, false);
    if (best != NULL && found.over != NULL && found.over->mask < best->mask)
        found.over = NULL;
    for (uint32_t i = 0; i < view->places; i++) {
        const struct view_route *route = &view->routes[i];

        if (route->filled == 0 || (to & route->mask) != route->prefix)
            continue;
        if (best == NULL || route->mask > best->mask)
            note_longer(view, route, &found);
        else
            found.doubled |= route > best && is_same(route, best);
    }
    return found;
}
