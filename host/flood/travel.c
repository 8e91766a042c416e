/*
 * travel.c: what flight software does around the relays, on all nodes of a net
 * at once. Either an instrument sends an order, or a port of some node hands
 * out what it has next and the copy arrives at the other end: which, is drawn.
 * So the copies of all orders travel in a random order, but for what the queues
 * say of one port.
 *
 * An order's slot is its number at every node. The headers that a relay wrote
 * stay with the node until its ports hand the order out.
 *
 * The awkward case is a relay that sends on again and again: the travel ends as
 * soon as there are more copies than are due.
 */
#include "travel.h"

#include <string.h>

#include "books.h"
#include "orders.h"

/* The longest time that a flood takes. */
#define MOST_SECONDS 5

static struct {
    uint32_t octets;
    uint8_t header[HJ_HEADER_ROOM];
} headers[MOST_NODES][MOST_ORDERS][HJ_PORTS];

/* Orders that wait to be sent, and the nodes where; ports that may have
 * something waiting. */
static struct {
    uint32_t order, node;
} entering[MOST_ORDERS];
static uint32_t entering_count;
static struct end busy[MOST_NODES * HJ_PORTS];
static uint32_t busy_count;
static bool is_busy[MOST_NODES][HJ_PORTS];

void travel_open(void)
{
    entering_count = busy_count = 0;
    memset(is_busy, 0, sizeof is_busy);
}

void travel_enter(uint32_t order, uint32_t node)
{
    entering[entering_count].order = order;
    entering[entering_count].node = node;
    entering_count++;
}

/* ---- An order arrives -------------------------------------------------- */

/* The port took the order. */
static void keep(struct end at, uint32_t order, hj_verdict verdict,
                 const uint8_t *output)
{
    uint32_t octets = hj_header_octets(verdict, at.port);

    headers[at.node][order][at.port].octets = octets;
    memcpy(headers[at.node][order][at.port].header,
           hj_header(output, at.port), octets);
    if (is_busy[at.node][at.port])
        return;
    is_busy[at.node][at.port] = true;
    busy[busy_count++] = at;
}

static bool arrive(struct end at, uint32_t order, uint32_t second,
                   const uint8_t *octets, uint32_t length)
{
    struct node *node = &nodes[at.node];
    hj_arrival arrival = {at.port, (uint16_t)order, second};
    uint8_t output[HJ_OUTPUT_ROOM];
    hj_verdict verdict =
        hj_receive(LENT_BOARD(node), LENT_MISSION(node), NULL, 0, arrival,
                   octets, length, output, sizeof output);

    for (uint32_t port = 0; port < HJ_PORTS; port++) {
        struct end taker = {at.node, port};

        if (hj_took(verdict) >> port & 1)
            keep(taker, order, verdict, output);
    }
    return books_note(at, order, verdict);
}

static bool enter(uint32_t which, uint32_t second)
{
    uint32_t order = entering[which].order;
    uint32_t node = entering[which].node;
    struct end at = {node, nodes[node].instrument};
    uint8_t octets[MOST_OCTETS];
    uint32_t length = order_octets(order, node, octets);

    entering[which] = entering[--entering_count];
    return arrive(at, order, second, octets, length);
}

/* ---- A port hands out -------------------------------------------------- */

/* The copy of an order that a port handed out arrives where its link leads. */
static bool cross(struct end from, uint32_t order, uint32_t second)
{
    struct end to = nodes[from.node].peers[from.port];
    uint32_t header = headers[from.node][order][from.port].octets;
    uint8_t octets[MOST_OCTETS] = {0};

    if (to.node == NO_NODE)
        return true;
    memcpy(octets, headers[from.node][order][from.port].header, header);
    octets[header] = (uint8_t)order;
    return arrive(to, order, second, octets, header + DATA_OCTETS);
}

static bool hand_out(uint32_t which, uint32_t second, uint64_t *copies)
{
    struct end from = busy[which];
    struct node *node = &nodes[from.node];
    hj_answer entry =
        hj_take(LENT_BOARD(node), LENT_MISSION(node), from.port);

    if (hj_refusal(entry) == HJ_DONE) {
        ++*copies;
        if (hj_slot(entry) < order_count)
            return cross(from, hj_slot(entry), second);
        return books_fail(from.node, NONE, "an order that there is not",
                          hj_slot(entry), order_count - 1);
    }
    is_busy[from.node][from.port] = false;
    busy[which] = busy[--busy_count];
    return true;
}

bool travel(struct random *random, uint32_t *second, uint64_t most,
            uint64_t *copies)
{
    uint32_t latest = *second + MOST_SECONDS;
    bool good = true;

    *copies = 0;
    while (good && entering_count + busy_count > 0) {
        uint32_t which = random_below(random, entering_count + busy_count);

        *second += *second < latest && random_one_in(random, 64);
        if (which < entering_count)
            good = enter(which, *second);
        else
            good = hand_out(which - entering_count, *second, copies);
        if (*copies > most)
            return books_fail(NONE, NONE, "copies, and no end of them",
                              *copies, most);
    }
    return good;
}
