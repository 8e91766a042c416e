/*
 * net.c: what moves between the nodes: the wires and the clock.
 *
 * It does what flight software does around the library. A wire is free: the
 * relay hands out a slot (hj_take), and that port's header and the data go out.
 * A slot is free again when each port that took it has handed it out. What
 * arrives at a node at one moment is heard together, before a wire begins; how,
 * is in hearing.c.
 *
 * Time is counted, not waited for: a datagram is on the wire for 8 bits an
 * octet, and arrives whole. Nothing else takes time. A wire sends one datagram
 * after the other, and each way by itself. On a link that is cut a wire is as
 * busy as ever, and what is on it is lost: the sender does not notice.
 *
 * The awkward case is a node's own datagram: the relay judges what arrives and
 * has no call for what begins here. So its own stand in a line before the wire,
 * the first first, and go before what the relay hands out.
 */
#include "net.h"

#include "beside.h"
#include "copies.h"
#include "foretold.h"
#include "hearing.h"
#include "messages.h"
#include "told.h"

/* ---- A wire begins ----------------------------------------------------- */

bool net_send(uint32_t node, uint32_t port, const struct datagram *datagram)
{
    struct wire *wire = &nodes[node].wires[port];

    if (wire->own_count == MOST_OWN)
        return false;
    wire->own[(wire->own_first + wire->own_count) % MOST_OWN] = *datagram;
    wire->own_count++;
    return true;
}

static void take_own(struct wire *wire)
{
    wire->flying = wire->own[wire->own_first];
    wire->own_first = (wire->own_first + 1) % MOST_OWN;
    wire->own_count--;
}

/* What the relay hands out; false where nothing waits. */
static bool take_entry(struct node *node, uint32_t port, hj_answer *entry)
{
    struct wire *wire = &node->wires[port];
    uint32_t mission = node_mission(node, port);

    *entry = hj_take(LENT_BOARD(node), LENT_MISSION(node, mission), port);
    beside_take(node, port, *entry);
    if (hj_refusal(*entry) != HJ_DONE)
        return false;
    wire->handed_out++;
    kept_copy(&node->slots[mission][hj_slot(*entry)], port, &wire->flying);
    node->slots[mission][hj_slot(*entry)].copies--;
    return true;
}

/* What was taken goes out on the wire. */
static void occupy(uint32_t node, uint32_t port, bool own, hj_answer entry)
{
    struct wire *wire = &nodes[node].wires[port];

    wire->busy = true;
    wire->lost = wire->cut;
    wire->until =
        now + wire_microseconds(wire->flying.length, wire->bits_per_second);
    copies_start(&wire->flying);
    told_start(node, port, own, entry);
    if (!own)
        foretold_take(node, port, hj_slot(entry));
}

void net_take(uint32_t node, uint32_t port)
{
    hj_answer entry;

    if (take_entry(&nodes[node], port, &entry))
        occupy(node, port, false, entry);
    else
        told_refused_take(node, port, hj_refusal(entry));
}

static void start_wire(uint32_t node, uint32_t port)
{
    struct wire *wire = &nodes[node].wires[port];
    bool own = wire->own_count > 0;
    hj_answer entry = 0;

    if (!wire->linked || wire->held || wire->busy)
        return;
    if (own)
        take_own(wire);
    else if (!take_entry(&nodes[node], port, &entry))
        return;
    occupy(node, port, own, entry);
}

void net_start_wires(void)
{
    for (uint32_t node = 0; node < node_count; node++) {
        for (uint32_t port = 0; port < HJ_PORTS; port++)
            start_wire(node, port);
    }
}

/* ---- A wire ends ------------------------------------------------------- */

static void note_sooner(struct wire *wire, struct wire **soonest)
{
    if (wire->busy && (*soonest == NULL || wire->until < (*soonest)->until))
        *soonest = wire;
}

/* The first of those that end next. */
static struct wire *next_to_end(void)
{
    struct wire *soonest = NULL;

    for (uint32_t node = 0; node < node_count; node++) {
        for (uint32_t port = 0; port < HJ_PORTS; port++)
            note_sooner(&nodes[node].wires[port], &soonest);
    }
    return soonest;
}

static void lose(struct wire *wire)
{
    const struct wire *back = &nodes[wire->peer].wires[wire->peer_port];

    wire->busy = false;
    told_lost(back->peer, back->peer_port);
}

/* Whether what is on the wire arrives now, and where these do. */
static bool joins(const struct wire *wire, const struct arrivals *arrivals)
{
    return wire->busy && !wire->lost && wire->until == now &&
           wire->peer == arrivals->node &&
           node_mission(&nodes[wire->peer], wire->peer_port) ==
               arrivals->mission;
}

/* Answers whether more may join: an echo request is answered before the next
 * one is heard. */
static bool join(struct wire *wire, struct arrivals *arrivals)
{
    uint32_t place = arrivals->count++;

    wire->busy = false;
    arrivals->came[place] = wire->flying;
    arrivals->how[place].port = wire->peer_port;
    arrivals->how[place].second = second_now();
    return !message_asks(&wire->flying);
}

/* What arrives where the first does, in the order of the wires. */
static void gather(const struct wire *first, uint32_t most,
                   struct arrivals *arrivals)
{
    bool open = true;

    arrivals->node = first->peer;
    arrivals->mission = node_mission(&nodes[first->peer], first->peer_port);
    arrivals->count = 0;
    for (uint32_t i = 0; open && i < node_count * HJ_PORTS; i++) {
        struct wire *wire = &nodes[i / HJ_PORTS].wires[i % HJ_PORTS];

        if (joins(wire, arrivals))
            open = join(wire, arrivals) && arrivals->count < most;
    }
}

/* What is on the wire is lost, or arrives, and what arrives with it; answers
 * how many that are. */
static uint32_t end_wires(struct wire *first, uint32_t most)
{
    static struct arrivals arrivals;

    if (first->lost) {
        lose(first);
        return 1;
    }
    gather(first, most, &arrivals);
    hear(&arrivals);
    return arrivals.count;
}

uint32_t net_step(uint64_t latest, uint32_t most)
{
    struct wire *first = next_to_end();
    uint32_t ended;

    if (first == NULL || first->until > latest)
        return 0;
    now = first->until;
    ended = end_wires(first, most);
    net_start_wires();
    return ended;
}
