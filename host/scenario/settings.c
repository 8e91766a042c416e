/*
 * settings.c: the words that set up nodes, ports, links, routes, groups, paths,
 * the lifetime of floods and echo drop. Whether a setting is good is the
 * library's to say: its number is told, and the line is refused.
 */
#include "settings.h"

#include <stdio.h>
#include <string.h>

#include "line.h"
#include "names.h"
#include "net.h"

/* `mission M` at the end of a line, where it is said; else mission 0. */
static uint32_t mission_said(void)
{
    return line_is("mission") ? line_number("a mission, 0 or 1", 0, 1) : 0;
}

/* `asks` and what a route asks for, where it is said; else nothing. */
static uint32_t capabilities_said(void)
{
    static const char *const ASKED[] = {"checksum", "hops", "both", NULL};
    static const uint32_t CODES[] = {HJ_CAPABLE_CHECKSUM, HJ_CAPABLE_HOP_COUNT,
                                     HJ_CAPABLE_BOTH};

    if (!line_is("asks"))
        return HJ_CAPABLE_NONE;
    return CODES[line_choice("'checksum', 'hops' or 'both'", ASKED)];
}

/* The library's answer to a setting. */
static void taken(uint32_t refusal)
{
    char found[100];

    line_end();
    if (refusal == HJ_DONE)
        return;
    snprintf(found, sizeof found, "%u: %s", (unsigned)refusal,
             number_name(refusal));
    line_refuse("a setting that the relay takes", found);
}

void set_node(void)
{
    static const char *const KINDS[] = {"host", "router", NULL};
    struct node *node = nodes + node_count;
    const char *name = line_word("a new node's name");
    uint32_t router = line_choice("'router' or 'host'", KINDS);

    if (node_count == MOST_NODES)
        line_refuse("at most 32 nodes", name);
    if (strlen(name) > MOST_NAME)
        line_refuse("a name of at most 20 characters", name);
    for (uint32_t other = 0; other < node_count; other++) {
        if (strcmp(nodes[other].name, name) == 0)
            line_refuse("a name that no other node has", name);
    }
    strcpy(node->name, name);
    taken(hj_fresh_board(LENT_BOARD(node)));
    for (uint32_t i = 0; i < HJ_MISSIONS; i++)
        taken(hj_fresh_mission(LENT_MISSION(node, i), i));
    taken(hj_set_router(LENT_BOARD(node), router));
    node_count++;
}

void set_port(void)
{
    struct node *node = &nodes[line_node()];
    uint32_t port = line_port();
    uint32_t address = line_address("the port's address", NULL);
    uint32_t mask = line_address("the port's mask", NULL);
    uint32_t mtu = line_number("an MTU", 0, 999999);
    uint32_t mission = mission_said();

    taken(hj_set_port(LENT_BOARD(node), port, address, mask, mtu, mission));
}

static struct wire *free_wire(uint32_t node, uint32_t port)
{
    if (!hj_get_port(LENT_BOARD(&nodes[node]), port).ready)
        line_refuse("a port that is set up", nodes[node].name);
    if (nodes[node].wires[port].linked)
        line_refuse("a port without a link", nodes[node].name);
    return &nodes[node].wires[port];
}

static void join(struct wire *wire, uint32_t peer, uint32_t port, uint32_t bits)
{
    wire->linked = true;
    wire->peer = peer;
    wire->peer_port = port;
    wire->bits_per_second = bits;
}

void set_link(void)
{
    uint32_t one = line_node();
    uint32_t one_port = line_port();
    uint32_t other = line_node();
    uint32_t other_port = line_port();
    uint32_t bits = line_number("bits a second, 1 to 100000000", 1, 100000000);

    line_end();
    if (one == other)
        line_refuse("two nodes", nodes[one].name);
    join(free_wire(one, one_port), other, other_port, bits);
    join(free_wire(other, other_port), one, one_port, bits);
    net_start_wires();
}

void set_route(void)
{
    static const char *const AVAILABLE[] = {"up", "down", "testing", "out",
                                            NULL};
    struct node *node = &nodes[line_node()];
    uint32_t place = line_number("a place, 0 to 511", 0, 999999);
    uint32_t prefix = line_address("the prefix", NULL);
    uint32_t mask = line_address("the mask", NULL);
    uint32_t port = line_port();
    uint32_t available =
        HJ_UP + line_choice("'up', 'down', 'testing' or 'out'", AVAILABLE);
    uint32_t capabilities = capabilities_said();
    uint32_t mission = mission_said();

    if (capabilities == HJ_CAPABLE_NONE)
        capabilities = capabilities_said();
    taken(hj_set_route(LENT_BOARD(node), LENT_ROUTES(node), place, prefix,
                       mask, port, available, capabilities, mission));
}

void set_group(void)
{
    struct node *node = &nodes[line_node()];
    uint32_t place = line_number("a place, 0 to 15", 0, 999999);
    uint32_t address = line_address("the group's address", NULL);
    uint32_t send = line_set("the ports to send to, as 0,2 or -");
    uint32_t subscribed = line_set("the subscribed ports, as 0,2 or -");
    uint32_t mission = mission_said();

    taken(hj_set_group(LENT_BOARD(node), LENT_MISSION(node, mission), place,
                       address, send, subscribed));
}

void set_path(void)
{
    static const char *const HERE[] = {"on", "here", NULL};
    struct node *node = &nodes[line_node()];
    uint32_t place = line_number("a place, 0 to 15", 0, 999999);
    uint32_t path = line_address("the path's address", NULL);
    uint32_t send = line_set("the ports to send to, as 0,2 or -");
    uint32_t here = line_choice("'here' or 'on'", HERE);
    uint32_t mission = mission_said();

    taken(hj_set_path(LENT_BOARD(node), LENT_MISSION(node, mission), place,
                      path, send, here));
}

void set_lifetime(void)
{
    struct node *node = &nodes[line_node()];
    uint32_t lifetime =
        line_number("a lifetime in seconds, 0 to 4294967295", 0, UINT32_MAX);

    taken(hj_set_lifetime(LENT_BOARD(node), lifetime));
}

void set_echo_drop(void)
{
    static const char *const SWITCH[] = {"off", "on", NULL};
    struct node *node = &nodes[line_node()];
    uint32_t drop = line_choice("'on' or 'off'", SWITCH);

    taken(hj_set_echo_drop(LENT_BOARD(node), drop));
}

/* Forgets what was granted to the mission's ports. What waits there would be
 * lost, so nothing may. */
static void close_ledger(struct node *node, uint32_t mission)
{
    for (uint32_t port = 0; port < HJ_PORTS; port++) {
        struct wire *wire = &node->wires[port];

        if (node_mission(node, port) != mission)
            continue;
        if (node_waiting(node, port) > 0)
            line_refuse("a mission for which nothing waits", node->name);
        wire->took = wire->dropped = wire->handed_out = 0;
    }
}

void set_fresh(void)
{
    struct node *node = &nodes[line_node()];
    uint32_t mission = mission_said();

    close_ledger(node, mission);
    taken(hj_fresh_mission(LENT_MISSION(node, mission), mission));
}
