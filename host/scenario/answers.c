/*
 * answers.c: a request is answered as flight software would (W-203). The relay
 * makes the reply (hj_echo); a slot of its own keeps it, and it waits on the
 * port like any other entry until a take hands it out.
 *
 * Where no reply is made and the call is not refused as a whole, hj_echo gives
 * no number. The story has to say why all the same, so the cause is looked for
 * here, in the request and the settings; the last one is left where no other
 * holds.
 */
#include "answers.h"

#include <string.h>

#include "beside.h"
#include "foretold.h"
#include "meaning.h"
#include "names.h"
#include "slots.h"
#include "told_echo.h"

/* Whether the address is that of a port's subnet with host bits all ones. */
static bool is_subnet_broadcast(const struct node *node, uint32_t mission,
                                uint64_t address)
{
    for (uint32_t port = 0; port < HJ_PORTS; port++) {
        hj_port found = hj_get_port(LENT_BOARD(node), port);

        if (found.ready && found.mission == mission &&
            (found.address | ~found.mask) == address)
            return true;
    }
    return false;
}

static bool is_for_many(const struct node *node, uint32_t mission,
                        uint64_t address)
{
    return !node_has(node, mission, address) &&
           (hj_class((uint32_t)address) != HJ_UNICAST ||
            is_subnet_broadcast(node, mission, address));
}

static const char *why_none(const struct node *node, uint32_t port,
                            const struct datagram *came, hj_verdict verdict)
{
    hj_fields fields = meaning_at(node, port, came);

    if (hj_ended_by(verdict) != HJ_DONE)
        return number_name(hj_ended_by(verdict));
    if (hj_value(hj_get_echo_drop(LENT_BOARD(node))) != 0)
        return "echo drop is on";
    if (fields.routing == FLOODED)
        return "the request is flooded";
    if (!fields.has_source)
        return "the request has no source";
    if (!fields.has_hop_count)
        return "the request has no hop count";
    if (is_for_many(node, node_mission(node, port), fields.destination_low))
        return "the request is for a broadcast or multicast address";
    return "the port's MTU leaves no room for a reply";
}

static void keep(struct kept *kept, const uint8_t *reply)
{
    kept->reply = true;
    kept->came.length = hj_reply_octets(kept->verdict);
    kept->came.header = hj_read(reply, kept->came.length).header;
    memcpy(kept->came.octets, reply, kept->came.length);
}

void answer_echo(uint32_t at, uint32_t port, const struct datagram *came)
{
    static uint8_t reply[HJ_MOST_LENGTH];
    struct node *node = &nodes[at];
    uint32_t mission = node_mission(node, port);
    hj_arrival arrival = {port, slots_free(node, mission), second_now()};
    struct kept *kept = &node->slots[mission][arrival.slot];
    uint32_t before[HJ_COUNTERS];

    node_counters(node, mission, before);
    kept->verdict = hj_echo(LENT_BOARD(node), LENT_MISSION(node, mission),
                            LENT_ROUTES(node), port, arrival.slot,
                            came->octets, came->length, reply, sizeof reply);
    keep(kept, reply);
    slots_count(node, kept);
    beside_echo(node, arrival, kept);
    if (hj_onward(kept->verdict) == HJ_NO_REPLY) {
        told_no_answer(why_none(node, port, came, kept->verdict));
        return;
    }
    told_answer(node, mission, kept, before);
    meaning_hold_reply(at, port, came, kept);
    foretold_enter(at, arrival.slot, kept);
}
