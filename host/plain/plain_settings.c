/*
 * Settings, each tested over the whole call in the order 21, 25, 22, 24, 23,
 * 35 and written only when nothing refuses it.
 *
 * The awkward cases: capability "both" is 4, and 3 is refused; an entry is
 * compared with the other places only, so that a place may be written over
 * itself; and a port that is set up is refused by 35 whatever is written, but
 * only after everything else was found good.
 */
#include "plain_list.h"
#include "plain_relay.h"

static bool flag_good(uint32_t flag)
{
    return flag <= 1;
}

/* Every port that the set names is the mission's; none of those is over 7. */
static bool set_good(const plain_view *view, plain_set set)
{
    return (set.bits & ~plain_own_ports(view).bits) == 0;
}

plain_refusal plain_set_router(plain_board *board, uint32_t router)
{
    if (!flag_good(router))
        return PLAIN_SET_CODE;
    board->router = router;
    return PLAIN_GOOD;
}

/* Every lifetime is good. */
plain_refusal plain_set_lifetime(plain_board *board, uint32_t lifetime)
{
    board->lifetime = lifetime;
    return PLAIN_GOOD;
}

plain_refusal plain_set_echo_drop(plain_board *board, uint32_t drop)
{
    if (!flag_good(drop))
        return PLAIN_SET_CODE;
    board->echo_drop = drop;
    return PLAIN_GOOD;
}

static bool port_mask_good(const plain_port *port)
{
    uint32_t ones = plain_mask_ones(port->mask);
    uint32_t host_bits = ~port->mask.bits;
    bool net_ten = port->address.bits >> 24 == 10;

    return plain_mask_contiguous(port->mask) &&
           ones >= 8 && ones <= 30 &&
           (!net_ten || ones == 24) &&
           (port->address.bits & host_bits) != host_bits;
}

plain_refusal plain_set_port(plain_board *board, uint32_t number,
                             const plain_port *port)
{
    uint32_t bit;


    if (number >= PLAIN_PORTS)
        return PLAIN_SET_NUMBER;
    if (plain_address_class(port->address) != PLAIN_UNICAST)
        return PLAIN_SET_CLASS;
    if (!port_mask_good(port))
        return PLAIN_SET_MASK;
    if (port->mtu < 1 || port->mtu > PLAIN_LENGTH_MOST ||
        port->mission >= PLAIN_MISSIONS)
        return PLAIN_SET_CODE;
    if (plain_set_has(board->set_up, number))
        return PLAIN_SET_TWICE;
    bit = (uint32_t)1 << number;
    board->ports[number] = *port;
    board->set_up.bits |= bit;
    board->owned[port->mission].bits |= bit;
    return PLAIN_GOOD;
}

plain_refusal plain_set_route(const plain_board *board, plain_list list,
                              uint32_t place, const plain_record *record)
{
    plain_routes before = {list.records, list.count};
    plain_refusal refusal;
    size_t holder;

    if (plain_list_too_long(list.count) || place >= list.count)
        return PLAIN_SET_NUMBER;
    refusal = plain_record_judge(board, record);
    if (refusal != PLAIN_GOOD)
        return refusal;
    holder = plain_list_holder(board, before, record);
    if (holder < list.count && holder != place)
        return PLAIN_SET_SAME;
    list.records[place] = *record;
    list.records[place].filled = 1;
    return PLAIN_GOOD;
}

plain_refusal plain_clear_route(plain_list list, uint32_t place)
{
    static const plain_record empty;

    if (plain_list_too_long(list.count) || place >= list.count)
        return PLAIN_SET_NUMBER;
    list.records[place] = empty;
    return PLAIN_GOOD;
}

static bool same_group_elsewhere(const plain_mission *mission, uint32_t place,
                                 plain_address address)
{
    for (uint32_t at = 0; at < PLAIN_GROUPS; at++)
        if (at != place && mission->groups[at].address.bits == address.bits)
            return true;
    return false;
}

plain_refusal plain_set_group(const plain_view *view, uint32_t place,
                              const plain_group *group)
{
    if (place >= PLAIN_GROUPS || !set_good(view, group->send) ||
        !set_good(view, group->subscribed))
        return PLAIN_SET_NUMBER;
    if (plain_address_class(group->address) != PLAIN_MULTICAST)
        return PLAIN_SET_CLASS;
    if (same_group_elsewhere(view->mission, place, group->address))
        return PLAIN_SET_SAME;
    view->mission->groups[place] = *group;
    return PLAIN_GOOD;
}

static bool same_path_elsewhere(const plain_mission *mission, uint32_t place,
                                plain_path path)
{
    for (uint32_t at = 0; at < PLAIN_PATHS; at++)
        if (at != place && mission->paths[at].path.bits == path.bits)
            return true;
    return false;
}

plain_refusal plain_set_path(const plain_view *view, uint32_t place,
                             const plain_path_place *path)
{
    if (place >= PLAIN_PATHS || !set_good(view, path->send))
        return PLAIN_SET_NUMBER;
    if (!plain_path_valid(path->path))
        return PLAIN_SET_CLASS;
    if (!flag_good(path->here))
        return PLAIN_SET_CODE;
    if (same_path_elsewhere(view->mission, place, path->path))
        return PLAIN_SET_SAME;
    view->mission->paths[place] = *path;
    return PLAIN_GOOD;
}

plain_refusal plain_clear_group(plain_mission *mission, uint32_t place)
{
    static const plain_group empty;

    if (place >= PLAIN_GROUPS)
        return PLAIN_SET_NUMBER;
    mission->groups[place] = empty;
    return PLAIN_GOOD;
}

plain_refusal plain_clear_path(plain_mission *mission, uint32_t place)
{
    static const plain_path_place empty;

    if (place >= PLAIN_PATHS)
        return PLAIN_SET_NUMBER;
    mission->paths[place] = empty;
    return PLAIN_GOOD;
}
