/*
 * view.c: noting answered calls, and what a destination names. A setting, a
 * take or a sweep counts where its answer is 0; a receipt, by its second, its
 * onward half and the ports that took; a reply, by the port that took it; a
 * line of the list always.
 */
#include "view.h"

#include <string.h>

#include "shared/answered.h"

static uint32_t number(struct trace_word word)
{
    return (uint32_t)answered_number(UINT32_MAX, word);
}

static uint32_t address(struct trace_word word)
{
    uint32_t found = 0;

    trace_address(word, &found);
    return found;
}

/* ---- Noting -------------------------------------------------------------- */

static void note_router(struct view *view, const struct trace_word *words)
{
    view->router = number(words[0]);
}

static void note_lifetime(struct view *view, const struct trace_word *words)
{
    view->lifetime = number(words[0]);
}

static void note_echo_drop(struct view *view, const struct trace_word *words)
{
    view->echo_drop = number(words[0]);
}

static void note_port(struct view *view, const struct trace_word *words)
{
    uint32_t which = number(words[0]) % VIEW_PORTS;
    struct view_port port = {address(words[1]), address(words[2]),
                             number(words[3])};

    view->ports[which] = port;
    view->missions[number(words[4]) % TRACE_MISSIONS].ports |= 1u << which;
}

/* From the prefix on, as they stand in set_route and record. */
static void put_route(struct view *view, uint32_t place, uint32_t filled,
                      const struct trace_word *words)
{
    struct view_route route = {filled,
                               address(words[0]),
                               address(words[1]),
                               number(words[2]),
                               number(words[3]),
                               number(words[4]),
                               number(words[5]) % TRACE_MISSIONS};

    if (place < view->places)
        view->routes[place] = route;
}

static void note_route(struct view *view, const struct trace_word *words)
{
    put_route(view, number(words[0]), 1, words + 1);
}

static void note_record(struct view *view, const struct trace_word *words)
{
    put_route(view, number(words[1]), number(words[2]), words + 3);
}

static void note_records(struct view *view, const struct trace_word *words)
{
    memset(view->routes, 0, sizeof view->routes);
    view->places = number(words[1]) % (TRACE_MOST_RECORDS + 1);
}

static void note_new(struct view *view, const struct trace_word *words)
{
    (void)words;
    memset(view, 0, sizeof *view);
    view->places = TRACE_RECORDS;
}

static void note_group(struct view *view, const struct trace_word *words)
{
    struct view_group group = {true, address(words[1]), number(words[2]),
                               number(words[3])};

    view->missions[view->mission].groups[number(words[0]) % VIEW_GROUPS] =
        group;
}

static void note_path(struct view *view, const struct trace_word *words)
{
    struct view_path path = {true, address(words[1]), number(words[2]),
                             number(words[3])};

    view->missions[view->mission].paths[number(words[0]) % VIEW_PATHS] = path;
}

static void note_clear_route(struct view *view, const struct trace_word *words)
{
    uint32_t place = number(words[0]);

    if (place < view->places)
        view->routes[place].filled = 0;
}

static void note_clear_group(struct view *view, const struct trace_word *words)
{
    uint32_t place = number(words[0]) % VIEW_GROUPS;

    view->missions[view->mission].groups[place].filled = false;
}

static void note_clear_path(struct view *view, const struct trace_word *words)
{
    uint32_t place = number(words[0]) % VIEW_PATHS;

    view->missions[view->mission].paths[place].filled = false;
}

static void note_take(struct view *view, const struct trace_word *words)
{
    view->missions[view->mission].waits[number(words[0]) % VIEW_PORTS]--;
}

static void note_taken(struct view *view, uint32_t took)
{
    for (uint32_t port = 0; port < VIEW_PORTS; port++)
        view->missions[view->mission].waits[port] += took >> port & 1;
}

static void note_sweep(struct view *view, const struct trace_word *words)
{
    struct view_mission *mission = &view->missions[view->mission];
    uint32_t second = number(words[0]);

    mission->last_second = second;
    for (uint32_t i = 0; i < mission->kept; i++) {
        if (view_frees(view, &mission->pairs[i], second))
            mission->pairs[i].held = false;
    }
}

/* In the place that it had, or as one more. */
static void keep_pair(struct view *view, struct view_pair pair)
{
    struct view_mission *mission = &view->missions[view->mission];
    const struct view_pair *had = view_pair_find(view, &pair);
    size_t at = had != NULL ? (size_t)(had - mission->pairs) : mission->kept;

    if (at == VIEW_KEPT)
        return;
    pair.held = true;
    mission->pairs[at] = pair;
    mission->kept += had == NULL;
}

/* The words of a receipt and of its answer, where it accepted its second. */
static void note_receipt(struct view *view, const struct trace_word *words,
                         const struct trace_word *told)
{
    static uint8_t octets[TRACE_MOST_OCTETS];
    uint32_t second = number(words[4]);
    struct arriving datagram;
    struct view_pair pair;
    size_t lent = 0;

    view->missions[view->mission].last_second = second;
    note_taken(view, number(told[3]));
    trace_octets(words[3], octets, &lent);
    datagram = arriving_read(octets, lent);
    if (number(told[0]) != 0 || datagram.routing != ARRIVING_FLOODED ||
        !view_keeps(number(told[2])))
        return;
    pair = view_pair_of(view, number(words[0]), &datagram);
    pair.second = second;
    keep_pair(view, pair);
}

/* Whether the number that ended a receipt left its second accepted. */
static bool accepts(uint32_t refusal)
{
    return refusal != 16 && refusal != 17 && refusal != 21 && refusal != 29;
}

void view_begin(struct view *view, enum call of,
                const struct trace_call *call)
{
    const char *arguments = call_facts[of].arguments;

    if (*arguments != '\0' && arguments[strlen(arguments) - 1] == 'M')
        view->mission =
            number(call->words[strlen(arguments)]) % TRACE_MISSIONS;
}

void view_note(struct view *view, enum call of, const struct trace_call *call,
               const struct trace_call *answer)
{
    static void (*const NOTES[LINES])(struct view *,
                                      const struct trace_word *) = {
        [CALL_TAKE] = note_take,
        [CALL_SWEEP] = note_sweep,
        [CALL_SET_ROUTER] = note_router,
        [CALL_SET_LIFETIME] = note_lifetime,
        [CALL_SET_ECHO_DROP] = note_echo_drop,
        [CALL_SET_PORT] = note_port,
        [CALL_SET_ROUTE] = note_route,
        [CALL_SET_GROUP] = note_group,
        [CALL_SET_PATH] = note_path,
        [CALL_CLEAR_ROUTE] = note_clear_route,
        [CALL_CLEAR_GROUP] = note_clear_group,
        [CALL_CLEAR_PATH] = note_clear_path,
        [LINE_NEW] = note_new,
        [LINE_RECORDS] = note_records,
        [LINE_RECORD] = note_record};

    if (of == CALL_RECEIVE && accepts(number(answer->words[0])))
        note_receipt(view, call->words + 1, answer->words);
    if (of == CALL_ECHO)
        note_taken(view, number(answer->words[2]));
    if (of < CALLS &&
        (answer->count == 0 || !trace_is(answer->words[0], "0")))
        return;
    if (NOTES[of] != NULL)
        NOTES[of](view, call->words + 1);
}

/* ---- Pairs --------------------------------------------------------------- */

struct view_pair view_pair_of(const struct view *view, uint32_t arrival,
                              const struct arriving *datagram)
{
    uint32_t domain = view->ports[arrival % VIEW_PORTS].address & 0xffffff00;
    struct view_pair pair = {.source = datagram->source,
                             .format = datagram->stamp_format,
                             .p_field = datagram->p_field,
                             .time = datagram->time,
                             .extended = datagram->extended};

    if (!datagram->extended)
        pair.source |= domain;
    return pair;
}

const struct view_pair *view_pair_find(const struct view *view,
                                       const struct view_pair *pair)
{
    const struct view_mission *mission = view_now(view);

    for (uint32_t i = 0; i < mission->kept; i++) {
        const struct view_pair *other = &mission->pairs[i];

        if (other->source == pair->source && other->format == pair->format &&
            other->p_field == pair->p_field && other->time == pair->time)
            return other;
    }
    return NULL;
}

uint32_t view_held(const struct view *view)
{
    uint32_t held = 0;

    for (uint32_t i = 0; i < view_now(view)->kept; i++)
        held += view_now(view)->pairs[i].held;
    return held;
}

bool view_frees(const struct view *view, const struct view_pair *pair,
                uint32_t second)
{
    return pair->held && second - pair->second > view->lifetime;
}

bool view_keeps(uint32_t onward)
{
    return onward == 1 || onward == 10 || onward == 11 || onward == 13 ||
           onward == 14 || onward == 15;
}

/* ---- Naming -------------------------------------------------------------- */

static uint32_t class_host_bits(uint32_t of)
{
    if (of >> 31 == 0)
        return 0xffffff;
    return of >> 30 == 2 ? 0xffff : 0xff;
}

/* Whether the destination is the port's own address, or a broadcast of its
 * networks; what it is of one of the mission's is noted. */
static bool name_port(const struct view_port *port, bool own,
                      struct naming *naming)
{
    uint32_t to = naming->destination;
    bool is_own = to == port->address;
    bool subnet = to == (port->address | ~port->mask);
    bool all = to == 0x0affffff && port->address >> 24 == 10;
    bool net = to != 0x0affffff &&
               to == (port->address | class_host_bits(port->address));

    naming->own |= own && is_own;
    naming->subnet |= own && subnet;
    naming->all_scps |= own && all;
    naming->net |= own && net;
    return is_own || subnet || all || net;
}

static void name_ports(const struct view *view, struct naming *naming)
{
    bool by_others = false, by_own = false;

    for (uint32_t i = 0; i < VIEW_PORTS; i++) {
        bool own = (view_own(view) >> i & 1) != 0;

        if ((view_set_up(view) >> i & 1) == 0)
            continue;
        if (name_port(&view->ports[i], own, naming))
            *(own ? &by_own : &by_others) = true;
    }
    naming->not_ours = by_others && !by_own;
}

static bool is_multicast(uint32_t address)
{
    if (address >> 24 == 10)
        return address % 2 == 1 && address % 256 != 255;
    return address >> 28 == 14;
}

static void name_group(const struct view *view, uint32_t arrival,
                       struct naming *naming)
{
    naming->multicast = is_multicast(naming->destination);
    for (uint32_t i = 0; i < VIEW_GROUPS; i++) {
        const struct view_group *group = &view_now(view)->groups[i];

        if (group->filled && group->address == naming->destination)
            naming->group = group;
    }
    if (naming->group != NULL)
        naming->subscribed = (naming->group->subscribed >> arrival & 1) != 0;
}

static void name_path(const struct view *view, struct naming *naming)
{
    for (uint32_t i = 0; i < VIEW_PATHS; i++) {
        const struct view_path *path = &view_now(view)->paths[i];

        if (path->filled && path->path == naming->destination)
            naming->path = path;
    }
}

struct naming view_name(const struct view *view, uint32_t arrival,
                        const struct arriving *datagram)
{
    struct naming naming = {.destination = datagram->destination};

    arrival %= VIEW_PORTS;
    if (!datagram->extended)
        naming.destination |= view->ports[arrival].address & 0xffffff00;
    naming.by_path = !datagram->has_source;
    naming.others = view_own(view) & ~(1u << arrival);
    if (naming.by_path) {
        name_path(view, &naming);
        return naming;
    }
    naming.limited = naming.destination == 0xffffffff;
    name_ports(view, &naming);
    name_group(view, arrival, &naming);
    naming.found = list_find(view, naming.destination);
    return naming;
}
