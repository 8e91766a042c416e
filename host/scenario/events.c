/*
 * events.c: the words that let time pass, and that tell.
 *
 * Time passes in `step`, `run` and `wait` alone, so that what is sent between
 * two of them is sent at one moment.
 *
 * The awkward case is a datagram without a hop count where routes or groups go
 * round in a ring: `run` would never end. It stops after MOST_STEPS arrivals
 * and refuses the line, and so does `wait`.
 */
#include "events.h"

#include <stdio.h>

#include "beside.h"
#include "copies.h"
#include "expect.h"
#include "line.h"
#include "net.h"
#include "replies.h"
#include "told.h"

#define MOST_STEPS 20000

/* ---- Time -------------------------------------------------------------- */

/* On a port without a link nothing may wait: it would be lost. */
void event_take(void)
{
    uint32_t node = line_node();
    uint32_t port = line_port();
    const struct wire *wire = &nodes[node].wires[port];

    line_end();
    if (wire->busy)
        line_refuse("a port whose wire is free", nodes[node].name);
    if (!wire->linked && node_waiting(&nodes[node], port) > 0)
        line_refuse("a port with a link", nodes[node].name);
    net_take(node, port);
}

void event_step(void)
{
    uint32_t steps =
        line_more() ? line_number("how many arrivals", 1, MOST_STEPS) : 1;

    line_end();
    while (steps > 0) {
        uint32_t ended = net_step(EVER, steps);

        if (ended == 0)
            line_refuse("something on a wire", "nothing");
        steps -= ended;
    }
}

/* All that arrives up to that moment. */
static void run_until(uint64_t latest)
{
    for (uint32_t left = MOST_STEPS; left > 0;) {
        uint32_t ended = net_step(latest, left);

        if (ended == 0)
            return;
        left -= ended;
    }
    line_refuse("an end (a ring needs a hop count)", "20000 arrivals");
}

void event_run(void)
{
    line_end();
    run_until(EVER);
}

void event_wait(void)
{
    uint32_t seconds =
        line_number("how many seconds, 1 to 1000000", 1, 1000000);
    uint64_t latest = now + UINT64_C(1000000) * seconds;
    char text[40];

    line_end();
    run_until(latest);
    now = latest;
    snprintf(text, sizeof text, "(%u s pass)", (unsigned)seconds);
    told_say(text);
}

/* At the clock's second, or at one that is said. */
void event_sweep(void)
{
    uint32_t node = line_node();
    uint32_t second = second_now();
    uint32_t mission = 0;
    uint32_t before, refusal;

    if (line_is("at"))
        second = line_number("a second, 0 to 4294967295", 0, UINT32_MAX);
    if (line_is("mission"))
        mission = line_number("a mission, 0 or 1", 0, 1);
    line_end();
    before = node_pairs(&nodes[node], mission);
    refusal = hj_sweep(LENT_BOARD(&nodes[node]),
                       LENT_MISSION(&nodes[node], mission), second);
    told_sweep(node, mission, second, refusal, before);
}

/* ---- What is told ------------------------------------------------------ */

void event_scene(void)
{
    expect_scene();
    beside_scene();
    copies_scene();
    replies_scene();
    told_scene(line_rest());
}

void event_say(void)
{
    told_say(line_rest());
}

void event_quiet(void)
{
    line_end();
    told_quiet(true);
}

void event_loud(void)
{
    line_end();
    told_quiet(false);
}
