/*
 * replies.c: the replies of this scene, in the order in which they came back.
 * An expectation names a reply by identifier and sequence, and then as much of
 * what it says as the scenario wants to hold it to; it holds where one of the
 * node's replies is like that.
 */
#include "replies.h"

#include "line.h"
#include "meaning.h"
#include "messages.h"

#define MOST_REPLIES 1024

static struct reply replies[MOST_REPLIES];
static uint32_t count;

void replies_scene(void)
{
    count = 0;
}

uint32_t replies_count(void)
{
    return count;
}

const struct reply *reply_at(uint32_t which)
{
    return &replies[which];
}

void replies_note(uint32_t node, uint32_t port, const struct datagram *came,
                  const hj_message *message)
{
    struct reply *reply = &replies[count];

    if (count == MOST_REPLIES)
        line_refuse("at most 1024 replies in a scene", "more");
    reply->node = node;
    reply->source =
        (uint32_t)meaning_at(&nodes[node], port, came).source_low;
    reply->data = message_data(came, message);
    reply->says = *message;
    reply->came = *came;
    count++;
}

/* ---- Expectations ------------------------------------------------------ */

/* What is said of a reply; what is not said is not looked at. */
struct said {
    bool from, hops, mtu, stamp, data;
    struct reply reply;
};

static bool read_said(struct said *said)
{
    struct reply *reply = &said->reply;

    if (line_is("from")) {
        said->from = true;
        reply->source = line_address("an address of four octets", NULL);
    } else if (line_is("hops")) {
        said->hops = true;
        reply->says.hop_count = line_number("a hop count, 0 to 255", 0, 255);
    } else if (line_is("mtu")) {
        said->mtu = true;
        reply->says.mtu = line_number("an MTU", 0, HJ_MOST_LENGTH);
    } else if (line_is("stamp")) {
        said->stamp = true;
        reply->says.stamp = line_number("a stamp", 0, UINT32_MAX);
    } else if (line_is("octets")) {
        said->data = true;
        reply->data = line_number("octets of data", 0, MOST_DATA);
    } else {
        return false;
    }
    return true;
}

static bool is_as_said(const struct reply *reply, const struct said *said)
{
    const struct reply *like = &said->reply;

    return reply->node == like->node &&
           reply->says.identifier == like->says.identifier &&
           reply->says.sequence == like->says.sequence &&
           (!said->from || reply->source == like->source) &&
           (!said->hops || reply->says.hop_count == like->says.hop_count) &&
           (!said->mtu || reply->says.mtu == like->says.mtu) &&
           (!said->stamp || reply->says.stamp == like->says.stamp) &&
           (!said->data || reply->data == like->data);
}

static struct said read_expectation(uint32_t node)
{
    struct said said = {.reply = {.node = node}};

    said.reply.says.identifier =
        line_number("an identifier, 0 to 65535", 0, UINT16_MAX);
    said.reply.says.sequence =
        line_number("a sequence number, 0 to 65535", 0, UINT16_MAX);
    while (line_more()) {
        if (!read_said(&said))
            line_refuse("from, hops, mtu, stamp or octets", line_rest());
    }
    return said;
}

bool replies_expect_one(uint32_t node)
{
    struct said said = read_expectation(node);

    for (uint32_t which = 0; which < count; which++) {
        if (is_as_said(&replies[which], &said))
            return true;
    }
    return false;
}

bool replies_expect_count(uint32_t node)
{
    uint32_t expected = line_number("how many replies", 0, MOST_REPLIES);
    uint32_t found = 0;

    for (uint32_t which = 0; which < count; which++)
        found += replies[which].node == node;
    return found == expected;
}
