/*
 * way.c: the way a datagram should go, by the settings. Each relay is asked as
 * it stands, by the library's own calls (hj_receive, hj_echo), but on a copy of
 * the mission's state, so that nothing is counted and nothing waits.
 *
 * Whether a link is cut or a port is held is not looked at: that is what the
 * echoes are sent to find out.
 */
#include "way.h"

#include <string.h>

/* What arrives at the end of a leg, judged and answered there. */
static void judge(struct step *step, struct kept *kept)
{
    static uint8_t output[HJ_MOST_LENGTH];
    const struct node *node = &nodes[step->peer];
    uint32_t mission = node_mission(node, step->peer_port);
    hj_mission copy = node->missions[mission];
    hj_arrival arrival = {step->peer_port, 0, second_now()};

    step->verdict = hj_receive(LENT_BOARD(node), &copy, HJ_MISSION_WORDS,
                               LENT_ROUTES(node), arrival, kept->came.octets,
                               kept->came.length, kept->output,
                               sizeof kept->output);
    copy = node->missions[mission];
    step->echo = hj_echo(LENT_BOARD(node), &copy, HJ_MISSION_WORDS,
                         LENT_ROUTES(node), step->peer_port, 0,
                         kept->came.octets, kept->came.length, output,
                         sizeof output);
    step->reply.length = hj_reply_octets(step->echo);
    step->reply.header = hj_read(output, step->reply.length).header;
    memcpy(step->reply.octets, output, step->reply.length);
    kept->verdict = step->verdict;
}

uint32_t way_port(uint32_t set)
{
    uint32_t port = 0;

    while (port < HJ_PORTS - 1 && (set >> port & 1) == 0)
        port++;
    return port;
}

void way_find(uint32_t node, uint32_t port, const struct datagram *sent,
              struct way *way)
{
    static struct kept kept;
    struct datagram next = *sent;

    way->count = 0;
    while (way->count < MOST_LEGS && nodes[node].wires[port].linked) {
        struct step *step = &way->steps[++way->count];
        const struct wire *wire = &nodes[node].wires[port];

        step->node = node;
        step->port = port;
        step->peer = wire->peer;
        step->peer_port = wire->peer_port;
        step->octets = next.length;
        kept.came = next;
        judge(step, &kept);
        if (hj_took(step->verdict) == 0)
            return;
        node = step->peer;
        port = way_port(hj_took(step->verdict));
        kept_copy(&kept, port, &next);
    }
}
