/*
 * books.c: the counters of each relay at the end, and its ledger.
 *
 * Three independent tellers are compared. The answers of hj_receive say which
 * ports took and which dropped a copy: what was granted. The answers of hj_take
 * say what was handed out. The relay itself says what waits (hj_waiting) and
 * how many copies it dropped (npOutDiscards). For each port, granted has to be
 * handed out + waiting + dropped; for each relay, the drops of all ports have
 * to be npOutDiscards.
 */
#include "books.h"

#include <inttypes.h>
#include <stdio.h>

#include "names.h"
#include "nodes.h"

static void print_counters(const struct node *node, uint32_t mission)
{
    const char *between = "";

    printf(mission == 0 ? "   counters:" : "   counters of mission 1:");
    for (uint32_t counter = 0; counter < HJ_COUNTERS; counter++) {
        uint32_t value = node_counter(node, mission, counter);

        if (value != 0) {
            printf("%s %s %" PRIu32, between, COUNTER_NAMES[counter], value);
            between = ",";
        }
    }
    puts(*between ? "; all others 0" : " all 0");
}

static bool port_closes(const struct node *node, uint32_t port)
{
    const struct wire *wire = &node->wires[port];
    uint64_t granted = wire->took + wire->dropped;
    uint64_t waiting = node_waiting(node, port);
    bool closes = granted == wire->handed_out + waiting + wire->dropped;

    printf("   port %" PRIu32 ": granted %" PRIu64 " = handed out %" PRIu64
           " + waiting %" PRIu64 " + dropped %" PRIu64 "%s\n",
           port, granted, wire->handed_out, waiting, wire->dropped,
           closes ? "" : "  DOES NOT CLOSE");
    return closes;
}

/* The counters and ports of one mission. */
static bool mission_closes(const struct node *node, uint32_t mission)
{
    uint64_t dropped = 0;
    bool closes = true;

    print_counters(node, mission);
    for (uint32_t port = 0; port < HJ_PORTS; port++) {
        hj_port found = hj_get_port(LENT_BOARD(node), port);

        if (found.mission != mission)
            continue;
        dropped += node->wires[port].dropped;
        if (found.ready)
            closes = port_closes(node, port) && closes;
    }
    if ((uint32_t)dropped != node_counter(node, mission, HJ_OUT_DISCARDS)) {
        printf("   dropped %" PRIu64 " by all ports, and npOutDiscards is "
               "another  DOES NOT CLOSE\n", dropped);
        return false;
    }
    return closes;
}

static bool relay_closes(const struct node *node)
{
    bool closes;

    puts(node->name);
    closes = mission_closes(node, 0);
    if (node_carries(node, 1))
        closes = mission_closes(node, 1) && closes;
    return closes;
}

bool books_close(void)
{
    bool closes = true;

    puts("\n== The counters and the ledger of each relay");
    for (uint32_t node = 0; node < node_count; node++)
        closes = relay_closes(&nodes[node]) && closes;
    return closes;
}
