/*
 * expect.c: what a scenario expects. An expectation looks at what has happened
 * since its scene began; but counters, pairs and what waits are as they stand.
 * One that fails is told, the rehearsal goes on, and ends with status 1.
 *
 * `refused`, `took`, `dropped` and `header` look at the node's latest answer,
 * `named` at what it was an answer to. `nothing` says that no datagram reached
 * the node at all, which is stronger than that none was delivered.
 */
#include "expect.h"

#include <stdio.h>
#include <string.h>

#include "line.h"
#include "meaning.h"
#include "names.h"
#include "replies.h"

#define MOST_DELIVERIES 1024

static struct delivery {
    uint32_t node;
    char text[MOST_USER_DATA + 1];
} deliveries[MOST_DELIVERIES];

static uint32_t delivered, expected, failed;

uint32_t expect_failures(void)
{
    return failed;
}

void expect_said(bool holds)
{
    expected++;
    failed += !holds;
}

uint32_t expect_count(void)
{
    return expected;
}

void expect_scene(void)
{
    delivered = 0;
    for (uint32_t node = 0; node < node_count; node++) {
        nodes[node].answered = false;
        nodes[node].arrivals = 0;
        nodes[node].sent_on = 0;
    }
}

void expect_note(uint32_t node, uint32_t port, const struct kept *kept)
{
    uint32_t from = hj_data_from(kept->verdict);
    uint32_t data = kept->came.length - from;

    nodes[node].answered = true;
    nodes[node].verdict = kept->verdict;
    nodes[node].named = meaning_at(&nodes[node], port, &kept->came);
    nodes[node].arrivals++;
    nodes[node].sent_on += hj_onward(kept->verdict) == HJ_SENT_ON;
    if (hj_local(kept->verdict) != HJ_DELIVERED)
        return;
    if (delivered == MOST_DELIVERIES)
        line_refuse("at most 1024 deliveries in a scene", "more");
    deliveries[delivered].node = node;
    memcpy(deliveries[delivered].text, kept->came.octets + from, data);
    deliveries[delivered].text[data] = '\0';
    delivered++;
}

/* ---- Each kind of expectation, of a node ------------------------------- */

/* When the text was first delivered to the node, or how many were delivered. */
static uint32_t first_delivery(uint32_t node, const char *text)
{
    uint32_t at = 0;

    while (at < delivered && (deliveries[at].node != node ||
                              strcmp(deliveries[at].text, text) != 0))
        at++;
    return at;
}

static bool expect_refused(uint32_t node)
{
    uint32_t number = line_number("a number, 1 to 30", 1, HJ_PAIRS_HELD);
    hj_verdict verdict = nodes[node].verdict;

    if (!nodes[node].answered)
        return false;
    if (hj_ended_by(verdict) != HJ_DONE)
        return hj_ended_by(verdict) == number;
    return (number >= HJ_NOT_FOR_US && hj_onward(verdict) == number) ||
           (number == HJ_UNKNOWN_TP_ID && hj_local(verdict) == number);
}

static bool expect_delivered(uint32_t node)
{
    return first_delivery(node, line_text("the data as \"text\"")) < delivered;
}

static bool expect_nothing(uint32_t node)
{
    return nodes[node].arrivals == 0;
}

static bool expect_arrivals(uint32_t node)
{
    return nodes[node].arrivals ==
           line_number("how many arrivals", 0, 999999999);
}

static bool expect_sent(uint32_t node)
{
    return nodes[node].sent_on ==
           line_number("how many were sent on", 0, 999999999);
}

/* The destination or the path, and the source where it is said. */
static bool expect_named(uint32_t node)
{
    static const char EXPECTED[] = "an address of four octets";
    const hj_fields *named = &nodes[node].named;
    uint32_t destination = line_address(EXPECTED, NULL);
    bool from = line_is("from");
    uint32_t source = from ? line_address(EXPECTED, NULL) : 0;

    return nodes[node].answered && named->destination_low == destination &&
           (!from || (named->has_source && named->source_low == source));
}

static bool expect_header(uint32_t node)
{
    static const char *const FORMS[] = {"kept", "rewritten", NULL};
    hj_verdict verdict = nodes[node].verdict;
    uint32_t port = line_port();
    uint32_t rewritten = line_choice("'kept' or 'rewritten'", FORMS);
    uint32_t octets =
        line_number("the header's octets, 4 to 50", 4, HJ_HEADER_ROOM);

    return nodes[node].answered &&
           (hj_rewritten(verdict) >> port & 1) == rewritten &&
           hj_header_octets(verdict, port) == octets;
}

static bool expect_took(uint32_t node)
{
    uint32_t ports = line_set("ports, as 0,2 or -");

    return nodes[node].answered && hj_took(nodes[node].verdict) == ports;
}

static bool expect_dropped(uint32_t node)
{
    uint32_t ports = line_set("ports, as 0,2 or -");

    return nodes[node].answered && hj_dropped(nodes[node].verdict) == ports;
}

static bool expect_counter(uint32_t node)
{
    static const char *names[HJ_COUNTERS + 1];
    uint32_t counter, value, mission = 0;

    memcpy(names, COUNTER_NAMES, sizeof COUNTER_NAMES);
    counter = line_choice("the name of a counter", names);
    value = line_number("the counter's value", 0, 999999999);
    if (line_is("mission"))
        mission = line_number("a mission, 0 or 1", 0, 1);
    return value == node_counter(&nodes[node], mission, counter);
}

static bool expect_pairs(uint32_t node)
{
    uint32_t held = line_number("how many pairs, 0 to 64", 0, HJ_PAIRS);
    uint32_t mission = 0;

    if (line_is("mission"))
        mission = line_number("a mission, 0 or 1", 0, 1);
    return held == node_pairs(&nodes[node], mission);
}

static bool expect_waiting(uint32_t node)
{
    uint32_t port = line_port();

    return line_number("how many wait", 0, HJ_QUEUE) ==
           node_waiting(&nodes[node], port);
}

/* Two texts, each delivered, the one before the other. */
static bool expect_order(uint32_t node)
{
    uint32_t first = first_delivery(node, line_text("a \"text\""));
    uint32_t second = first_delivery(node, line_text("a second \"text\""));

    return first < second && second < delivered;
}

void expect(void)
{
    static const char *const KINDS[] = {
        "refused", "delivered", "nothing", "arrivals", "sent",
        "named",   "header",    "took",    "dropped",  "counter",
        "pairs",   "waiting",   "order",   "reply",    "replies",
        NULL};
    static bool (*const HOLDS[])(uint32_t) = {
        expect_refused, expect_delivered, expect_nothing, expect_arrivals,
        expect_sent,    expect_named,     expect_header,  expect_took,
        expect_dropped, expect_counter,   expect_pairs,   expect_waiting,
        expect_order,   replies_expect_one, replies_expect_count};
    char line[1000];
    uint32_t node, kind;
    bool holds;

    line_copy(line, sizeof line);
    node = line_node();
    kind = line_choice("refused, delivered, nothing, arrivals, sent, named, "
                       "header, took, dropped, counter, pairs, waiting, order, "
                       "reply or replies",
                       KINDS);
    holds = HOLDS[kind](node);
    line_end();
    expect_said(holds);
    printf("   %s %s\n", holds ? "as expected:" : "NOT AS EXPECTED:", line);
}
