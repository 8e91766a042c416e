/*
 * books.c: two kinds of checks. Each answer is held to what is due of this
 * relay, which has had the order before or has not. At the end of a flood,
 * every node is held to what is due by the links: whether the order reached it,
 * and how often it was sent on. Nothing may wait any more, and the counters
 * must be the sums of what was due of each answer.
 */
#include "books.h"

#include <inttypes.h>
#include <stdio.h>
#include <string.h>

static uint64_t seed_said;
static uint32_t net_said;
static struct {
    uint32_t arrivals, sent_on;
    bool known; /* the pair is kept */
} accounts[MOST_NODES][MOST_ORDERS];
static uint32_t counters[MOST_NODES][HJ_COUNTERS];

void books_say_run(uint64_t seed, uint32_t net)
{
    seed_said = seed;
    net_said = net;
}

bool books_fail(uint32_t node, uint32_t order, const char *what,
                uint64_t found, uint64_t is_due)
{
    printf("flood: FAILED: seed=%" PRIu64 ", net %" PRIu32, seed_said,
           net_said);
    if (node != NONE)
        printf(", node %" PRIu32, node);
    if (order != NONE)
        printf(", order %" PRIu32, order);
    printf(": %s: %" PRIu64 ", and %" PRIu64 " is due\n", what, found, is_due);
    return false;
}

void books_open(void)
{
    memset(counters, 0, sizeof counters);
}

/* A relay knows what it kept before, and nothing that was swept. */
void books_begin(void)
{
    memset(accounts, 0, sizeof accounts);
    for (uint32_t node = 0; node < node_count; node++) {
        for (uint32_t order = 0; order < order_count; order++)
            accounts[node][order].known = due[node][order].keeps;
    }
}

/* ---- One answer -------------------------------------------------------- */

static uint32_t local_due(uint32_t node, uint32_t order)
{
    return order_delivered(order, node) ? HJ_DELIVERED : HJ_LOCAL_NO;
}

/* The onward half, where so many other ports are wanted. */
static uint32_t onward_due(uint32_t node, uint32_t order, uint32_t others)
{
    if (!nodes[node].router)
        return order_delivered(order, node) ? HJ_NOT_ASKED : HJ_NOT_FOR_US;
    if (accounts[node][order].known || order_ends(order, node))
        return HJ_NOT_ASKED;
    return others == 0 ? HJ_NO_ROUTE : HJ_SENT_ON;
}

/* Each half counts in its own counter. */
static void count(uint32_t node, uint32_t local, uint32_t onward)
{
    counters[node][HJ_IN_RECEIVES]++;
    counters[node][HJ_IN_DELIVERS] += local == HJ_DELIVERED;
    counters[node][HJ_FORW_DATAGRAMS] += onward == HJ_SENT_ON;
    counters[node][HJ_OUT_NO_ROUTES] += onward == HJ_NO_ROUTE;
    counters[node][HJ_IN_ADDR_ERRORS] += onward == HJ_NOT_FOR_US;
}

bool books_note(struct end at, uint32_t order, hj_verdict verdict)
{
    uint32_t others = nodes[at.node].ports & ~(UINT32_C(1) << at.port);
    uint32_t local = local_due(at.node, order);
    uint32_t onward = onward_due(at.node, order, others);
    uint32_t took = onward == HJ_SENT_ON ? others : 0;

    if (hj_ended_by(verdict) != HJ_DONE)
        return books_fail(at.node, order, "refused by", hj_ended_by(verdict),
                          0);
    if (hj_local(verdict) != local)
        return books_fail(at.node, order, "the local half",
                          hj_local(verdict), local);
    if (hj_onward(verdict) != onward)
        return books_fail(at.node, order, "the onward half",
                          hj_onward(verdict), onward);
    if (hj_took(verdict) != took || hj_dropped(verdict) != 0)
        return books_fail(at.node, order, "the ports that took it",
                          hj_took(verdict), took);
    count(at.node, local, onward);
    accounts[at.node][order].arrivals++;
    accounts[at.node][order].sent_on += onward == HJ_SENT_ON;
    if (nodes[at.node].router && !order_ends(order, at.node))
        accounts[at.node][order].known = true;
    return true;
}

/* ---- The end of a flood ------------------------------------------------ */

static bool account_holds(uint32_t node, uint32_t order)
{
    const struct due *is_due = &due[node][order];
    bool reached = accounts[node][order].arrivals > 0;
    uint32_t sent_on = accounts[node][order].sent_on;

    if (reached != is_due->reached)
        return books_fail(node, order, "reached", reached, is_due->reached);
    if (sent_on != is_due->sends_on)
        return books_fail(node, order, "times sent on", sent_on,
                          is_due->sends_on);
    return true;
}

static bool nothing_waits(uint32_t node)
{
    for (uint32_t port = 0; port < HJ_PORTS; port++) {
        hj_answer waiting = hj_waiting(LENT_MISSION(&nodes[node]), port);

        if (waiting != 0)
            return books_fail(node, NONE, "entries that wait", waiting, 0);
    }
    return true;
}

static bool counters_agree(uint32_t node)
{
    for (uint32_t i = 0; i < HJ_COUNTERS; i++) {
        uint32_t value = hj_value(hj_counter(LENT_MISSION(&nodes[node]), i));

        if (value != counters[node][i])
            return books_fail(node, NONE, "a counter", value,
                              counters[node][i]);
    }
    return true;
}

bool books_close(uint64_t copies, uint64_t due_copies)
{
    bool good = true;

    for (uint32_t node = 0; good && node < node_count; node++) {
        for (uint32_t order = 0; good && order < order_count; order++)
            good = account_holds(node, order);
        good = good && nothing_waits(node) && counters_agree(node);
    }
    if (good && copies != due_copies)
        return books_fail(NONE, NONE, "copies", copies, due_copies);
    return good;
}

bool books_pairs(void)
{
    for (uint32_t node = 0; node < node_count; node++) {
        uint32_t held = 0;

        for (uint32_t place = 0; place < HJ_PAIRS; place++)
            held += hj_pair_word(LENT_MISSION(&nodes[node]), place, 0) != 0;
        if (held != due_pairs(node))
            return books_fail(node, NONE, "pairs held", held,
                              due_pairs(node));
    }
    return true;
}

/* ---- What a flood came to ---------------------------------------------- */

uint64_t books_reached(void)
{
    uint64_t reached = 0;

    for (uint32_t node = 0; node < node_count; node++) {
        for (uint32_t order = 0; order < order_count; order++)
            reached += accounts[node][order].arrivals > 0;
    }
    return reached;
}

uint64_t books_sent_on(void)
{
    uint64_t sent_on = 0;

    for (uint32_t node = 0; node < node_count; node++) {
        for (uint32_t order = 0; order < order_count; order++)
            sent_on += accounts[node][order].sent_on;
    }
    return sent_on;
}
