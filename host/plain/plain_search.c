/*
 * Searches over ports and places, each a plain run through its table.
 *
 * The awkward cases: a route that was found is told by a flag and not by its
 * ones, since the default route has none; and the broadcast of all SCPS is the
 * net broadcast of net 10 taken as class A, so the three forms of a broadcast
 * of ours come down to two comparisons.
 */
#include "plain_search.h"

#include "plain_list.h"

plain_found plain_search(const plain_view *view, plain_address address)
{
    plain_found found = {PLAIN_GOOD, false, 0, 0, 0};
    const plain_record *route;

    if (plain_list_too_long(view->routes.count)) {
        found.refusal = PLAIN_SET_NUMBER;
        return found;
    }
    route = plain_list_longest(view->board, view->mission->number,
                               view->routes, address);
    if (route == NULL)
        return found;
    found.found = true;
    found.place = (uint32_t)(route - view->routes.records);
    found.ones = plain_mask_ones(route->mask);
    found.port = route->port;
    return found;
}

const plain_group *plain_search_group(const plain_mission *mission,
                                      plain_address address)
{
    for (uint32_t at = 0; at < PLAIN_GROUPS; at++)
        if (mission->groups[at].address.bits == address.bits)
            return &mission->groups[at];
    return NULL;
}

const plain_path_place *plain_search_path(const plain_mission *mission,
                                          plain_path path)
{
    for (uint32_t at = 0; at < PLAIN_PATHS; at++)
        if (mission->paths[at].path.bits == path.bits)
            return &mission->paths[at];
    return NULL;
}

bool plain_search_own(const plain_view *view, plain_address destination)
{
    plain_set own = plain_own_ports(view);

    for (uint32_t port = 0; port < PLAIN_PORTS; port++)
        if (plain_set_has(own, port) &&
            view->board->ports[port].address.bits == destination.bits)
            return true;
    return false;
}

static bool broadcast_of_port(const plain_port *port,
                              plain_address destination)
{
    uint32_t of_network =
        port->address.bits | plain_class_host_bits(port->address);
    uint32_t of_subnet = port->address.bits | ~port->mask.bits;

    return destination.bits == of_network || destination.bits == of_subnet;
}

bool plain_search_broadcast(const plain_view *view,
                            plain_address destination)
{
    plain_set own = plain_own_ports(view);

    for (uint32_t port = 0; port < PLAIN_PORTS; port++)
        if (plain_set_has(own, port) &&
            broadcast_of_port(&view->board->ports[port], destination))
            return true;
    return false;
}
