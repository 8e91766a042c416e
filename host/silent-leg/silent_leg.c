/*
 * silent-leg: finds the leg at which silence begins, from the ground, by echoes
 * (W-203).
 *
 *     silent-leg SCENARIO NODE PORT ADDRESS [scene=TITLE] [hops=N] [octets=N]
 *                [identifier=N] [rates=N,N,...]
 *     silent-leg [CAPTURED] [rates=N,N,...]
 *
 * On the net of a scenario it sends echo requests with growing hop counts and
 * reads what comes back. Without one it reads datagrams that were captured. In
 * either case it prints the legs as a table, and says where silence begins and
 * what it can mean.
 *
 * Its parts, each of which uses only those above it:
 *
 *   asked.c, echoes.c       the arguments; the echoes that were seen
 *   matches.c, legs.c       which request each reply answers; which leg it
 *                           speaks of
 *   way.c                   the way that a scenario's settings foretell
 *   probes.c, captured.c    the echoes of a net, and of captured datagrams
 *   table.c, silence.c      the table; what the silence can mean
 */
#include <inttypes.h>
#include <stdio.h>

#include "asked.h"
#include "captured.h"
#include "probes.h"
#include "scenario/line.h"
#include "scenario/told.h"
#include "scenario/words.h"
#include "silence.h"
#include "table.h"

static const struct program PROGRAM = {
    "silent-leg",
    "usage: silent-leg [--help | --version]\n"
    "       silent-leg SCENARIO NODE PORT ADDRESS [scene=TITLE] [hops=N]\n"
    "                  [octets=N] [identifier=N] [rates=N,N,...]\n"
    "       silent-leg [CAPTURED] [rates=N,N,...]\n"
    "\n"
    "Finds the leg at which silence begins, by echo requests with growing hop\n"
    "counts. On the net of a scenario, as it stands at the end of the scene\n"
    "whose title begins with TITLE or at the end of the file, it sends them\n"
    "from a node by a port to an address of four octets: hop counts up to 16,\n"
    "or N, each with N octets of data, 0 where none is said, and identifier\n"
    "1, or N. Or it reads captured datagrams, one a line in hexadecimal, from\n"
    "a file or from standard input. Rates are bits a second of leg 1, leg 2\n"
    "and so on; the links of a scenario have their own. docs/REHEARSAL.md\n"
    "says how to read the table.\n"
    "\n"
    "Status: 0 the address answers, and so does each relay, each time that it\n"
    "was asked; 1 not so; 2 bad usage, a line that is not understood, or a\n"
    "file or the output failed.\n",
    true,
};

/* ---- A scenario's net -------------------------------------------------- */

/* The node, its port and the address, as they stand in the arguments. */
static struct route read_route(const struct asked *asked)
{
    static char text[200];
    struct route route;

    snprintf(text, sizeof text, "%s %s %s", asked->words[1], asked->words[2],
             asked->words[3]);
    line_file(PROGRAM.name, "the arguments");
    (void)line_begin(0, text);
    route.node = line_node();
    route.port = line_port();
    route.destination = line_address("an address of four octets", NULL);
    line_end();
    if (!nodes[route.node].wires[route.port].linked)
        line_refuse("a port with a link", asked->words[2]);
    if (hj_class(route.destination) != HJ_UNICAST)
        line_refuse("an address of one system, since no other answers",
                    asked->words[3]);
    route.source = hj_get_port(LENT_BOARD(&nodes[route.node]), route.port)
                       .address;
    return route;
}

static void know_rates(const struct asked *asked, struct known *known)
{
    for (uint32_t i = 0; i < asked->rate_count; i++)
        known[i + 1].bits = asked->rates[i];
}

static void know_links(const struct way *way, struct known *known)
{
    for (uint32_t leg = 1; leg <= way->count; leg++) {
        const struct step *step = &way->steps[leg];

        known[leg].bits =
            nodes[step->node].wires[step->port].bits_per_second;
        known[leg].request = step->octets;
        known[leg].reply = step->reply.length;
        snprintf(known[leg].text, sizeof known[leg].text,
                 "%s port %" PRIu32 " to %s port %" PRIu32,
                 nodes[step->node].name, step->port, nodes[step->peer].name,
                 step->peer_port);
    }
}

static int on_net(const struct asked *asked, struct known *known)
{
    static struct way way;
    static struct legs legs;
    static struct datagram request;
    struct performance net = {PROGRAM.name, asked->words[0], true,
                              asked->scene};
    struct route route;

    told_quiet(true);
    if (words_perform(&net) != 0)
        return 2;
    route = read_route(asked);
    probes_build(&route, asked, 255, &request);
    way_find(route.node, route.port, &request, &way);
    know_links(&way, known);
    know_rates(asked, known);
    probes_send(&route, asked);
    legs_find(&requests.first[0], &legs);
    table_print(&legs, known);
    return silence_tell(&legs, known, &way) ? 0 : 1;
}

/* ---- Captured datagrams ------------------------------------------------ */

/* Whether no request before it goes the same way in the same run. */
static bool begins_run(uint32_t which)
{
    for (uint32_t i = 0; i < which; i++) {
        if (echoes_are_one_run(&requests.first[i], &requests.first[which]))
            return false;
    }
    return true;
}

static uint32_t strays(void)
{
    uint32_t count = 0;

    for (uint32_t i = 0; i < replies.count; i++)
        count += matches_find(&replies.first[i]).count == 0;
    return count;
}

static void tell_passed_over(void)
{
    if (echoes_others() + echoes_repeats() + strays() > 0)
        printf("Passed over: %" PRIu32 " that are no echo messages, %" PRIu32
               " seen before, %" PRIu32 " replies to\nno request seen.\n",
               echoes_others(), echoes_repeats(), strays());
    if (requests.count == 0)
        puts("There is no echo request among them.");
}

static int on_captured(const struct asked *asked, struct known *known)
{
    static struct legs legs;
    bool good = true;

    if (captured_read(asked->word_count > 0 ? asked->words[0] : NULL) != 0)
        return 2;
    know_rates(asked, known);
    for (uint32_t i = 0; i < requests.count; i++) {
        if (!begins_run(i))
            continue;
        legs_find(&requests.first[i], &legs);
        table_print(&legs, known);
        good = silence_tell(&legs, known, NULL) && good;
    }
    tell_passed_over();
    return good && requests.count > 0 ? 0 : 1;
}

int main(int count, char **arguments)
{
    static struct known known[MOST_LEGS + 1];
    struct asked asked = {.hops = 16, .identifier = 1};
    int status = options_status(&PROGRAM, arguments + (count > 0));

    if (status == OPTIONS_GO_ON)
        status = asked_read(&PROGRAM, arguments + 1, &asked);
    if (status != OPTIONS_GO_ON)
        return status;
    if (asked.word_count == 4)
        return options_end(&PROGRAM, on_net(&asked, known));
    if (asked.for_net != NULL)
        return options_refuse(&PROGRAM, "goes with a scenario alone",
                              asked.for_net);
    if (asked.word_count > 1)
        return options_refuse(&PROGRAM, "say a node, a port and an address too",
                              asked.words[0]);
    return options_end(&PROGRAM, on_captured(&asked, known));
}
