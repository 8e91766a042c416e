/*
 * flood: floods datagrams on large random nets of relays, and holds every relay
 * to what is due (W-207).
 *
 *     flood [seed=N] [nodes=N] [links=N] [orders=N] [nets=N]
 *
 * Each net is drawn anew: the first, the third and so on with a way between any
 * two nodes where there are links enough, the others anyhow, so that many fall
 * apart. On each, orders are flooded three times over: as new ones; again after
 * a sweep that comes too early to free a pair, from other nodes; and again from
 * their own nodes after a sweep that frees all. Each time all orders travel at
 * once, in a random order, until nothing waits.
 *
 * Its parts, each of which uses only those above it:
 *
 *   net.c       the nodes, links and instruments, and the relays
 *   orders.c    the datagrams that are flooded
 *   due.c       what is due by the links
 *   books.c     what the relays answered, held against that
 *   travel.c    the copies on their way
 *
 * The first thing that is not as due is said, with the seed, and ends the run
 * with status 1. The same seed makes the same run.
 */
#include <inttypes.h>
#include <stdio.h>

#include "books.h"
#include "shared/options.h"
#include "shared/settings.h"
#include "travel.h"

static struct random randoms;
static struct random *const random = &randoms;
static uint32_t second;
static uint64_t all_copies;

/* ---- One flood --------------------------------------------------------- */

/* All orders are flooded, each from its own node or from another. */
static bool flood(const char *name, bool elsewhere)
{
    uint64_t due_copies = 0, copies;

    books_begin();
    for (uint32_t order = 0; order < order_count; order++) {
        uint32_t node =
            elsewhere ? net_instrument(random) : orders[order].home;

        due_copies += due_flood(order, node);
        travel_enter(order, node);
    }
    if (!travel(random, &second, due_copies, &copies) ||
        !books_close(copies, due_copies) || !books_pairs())
        return false;
    all_copies += copies;
    printf("   %s: nodes reached %" PRIu64 ", sent on %" PRIu64
           ", copies %" PRIu64 "\n",
           name, books_reached(), books_sent_on(), copies);
    return true;
}

/* All relays sweep. */
static bool sweep(uint32_t at)
{
    second = at;
    for (uint32_t i = 0; i < node_count; i++) {
        struct node *node = &nodes[i];
        uint32_t refusal =
            hj_sweep(LENT_BOARD(node), LENT_MISSION(node), second);

        if (refusal != HJ_DONE)
            return books_fail(i, NONE, "a sweep is refused by", refusal, 0);
    }
    return books_pairs();
}

/* ---- One net ----------------------------------------------------------- */

static bool fly_net(uint32_t count, uint32_t links, uint32_t order_number,
                    bool together)
{
    uint32_t made = net_draw(count, links, together, random);
    uint32_t start = second;

    books_open();
    travel_open();
    due_forget();
    orders_draw(order_number, random);
    printf("nodes %" PRIu32 ", routers %" PRIu32 ", links %" PRIu32
           ", parts %" PRIu32 ", orders %" PRIu32 "\n",
           count, net_routers(), made, net_parts(), order_number);
    if (!flood("new", false))
        return false;
    /* No pair is older than the lifetime, and the oldest is just as old. */
    if (!sweep(start + LIFETIME) || !flood("repeated", true))
        return false;
    /* Each pair is older, and the youngest by a second. */
    due_forget();
    return sweep(second + LIFETIME + 1) && flood("swept, and again", false);
}

/* ---- The whole --------------------------------------------------------- */

static const struct program PROGRAM = {
    "flood",
    "usage: flood [--help | --version] [seed=N] [nodes=N] [links=N] "
    "[orders=N]\n"
    "             [nets=N]\n"
    "\n"
    "Draws nets of relays of the library, 2 where no number is given, of 300\n"
    "nodes and 450 links, floods 24 orders on each, and checks whom they\n"
    "reach and what each relay does (docs/REHEARSAL.md). The seed, 1 where\n"
    "none is given, begins the random numbers.\n"
    "\n"
    "Status: 0 all was as due; 1 not so; 2 bad usage, or the output failed.\n",
    true,
};

enum { SEED, NODES, LINKS, ORDERS, NETS, SETTINGS };

/* Says which setting is out of its range; answers whether any is. */
static bool out_of_range(const struct setting *settings)
{
    const struct {
        uint64_t least, most;
    } ranges[SETTINGS] = {{0, UINT64_MAX},
                          {1, MOST_NODES},
                          {0, MOST_LINKS_OF(settings[NODES].value)},
                          {1, MOST_ORDERS},
                          {1, 1000}};

    for (uint32_t i = 0; i < SETTINGS; i++) {
        if (settings[i].value >= ranges[i].least &&
            settings[i].value <= ranges[i].most)
            continue;
        fprintf(stderr,
                "flood: %s is %" PRIu64 " to %" PRIu64 ", and not %" PRIu64
                "\nflood: try --help\n",
                settings[i].name, ranges[i].least, ranges[i].most,
                settings[i].value);
        return true;
    }
    return false;
}

int main(int count, char **arguments)
{
    struct setting settings[SETTINGS] = {
        {"seed", 1}, {"nodes", 300}, {"links", 450}, {"orders", 24},
        {"nets", 2}};
    int status = options_status(&PROGRAM, arguments + (count > 0));

    if (status != OPTIONS_GO_ON)
        return status;
    if (!settings_take(&PROGRAM, settings, SETTINGS, arguments + 1) ||
        out_of_range(settings))
        return 2;
    random->state = settings[SEED].value;
    for (uint32_t net = 1; net <= settings[NETS].value; net++) {
        books_say_run(settings[SEED].value, net);
        printf("net %" PRIu32 ": ", net);
        if (!fly_net((uint32_t)settings[NODES].value,
                     (uint32_t)settings[LINKS].value,
                     (uint32_t)settings[ORDERS].value, net % 2 == 1))
            return options_end(&PROGRAM, 1);
    }
    printf("flood: seed=%" PRIu64 ": %" PRIu64 " copies, all as due\n",
           settings[SEED].value, all_copies);
    return options_end(&PROGRAM, 0);
}
