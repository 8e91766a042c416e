/*
 * probes.c: the requests have hop counts 1, 2, 3 and so on, the hop count as
 * their sequence number, and the identifier that was asked for. Each asks one
 * relay more than the one before it.
 * They have intermediate delivery, no precedence, so that they overtake
 * nothing, and as timestamp the net's clock in milliseconds, which the replies
 * bring back.
 *
 * A relay that does not answer is no reason to stop: those behind it may. So
 * PATIENCE requests more are sent behind the last leg that answered.
 */
#include "probes.h"

#include "scenario/expect.h"
#include "scenario/messages.h"
#include "scenario/net.h"
#include "scenario/replies.h"

#define PATIENCE 3

void probes_build(const struct route *route, const struct asked *asked,
                  uint32_t hops, struct datagram *request)
{
    uint8_t message[MOST_USER_DATA];
    hj_fields fields = {.destination_low = route->destination,
                        .source_low = route->source,
                        .time = now / 1000 & UINT32_MAX,
                        .tp_id = HJ_TP_SCMP,
                        .has_source = 1,
                        .extended = 1,
                        .has_hop_count = 1,
                        .hop_count = hops,
                        .stamp_format = HJ_STAMP_BINARY,
                        .intermediate = 1};

    (void)datagram_build(&fields, message,
                         message_request((uint16_t)asked->identifier,
                                         (uint16_t)hops, asked->octets,
                                         message),
                         request);
}

/* What was delivered before is forgotten; there is no room for all of it. */
static void begin(void)
{
    expect_scene();
    replies_scene();
}

/* The net runs until it is quiet. */
static void run(void)
{
    while (net_step(EVER, UINT32_MAX) > 0)
        continue;
}

/* How far the requests were answered. */
struct heard {
    uint32_t leg;
    bool arrived;
};

/* A reply that was taken in. */
static void hear(struct heard *heard, const struct echo *reply)
{
    struct match match = matches_find(reply);
    uint32_t leg = match.count == 1 ? legs_number(match.request, reply) : 0;

    if (leg > heard->leg)
        heard->leg = leg;
    heard->arrived = heard->arrived || match.fit == FITS_DESTINATION;
}

static void take_replies(uint32_t node, struct heard *heard)
{
    for (uint32_t i = 0; i < replies_count(); i++) {
        const struct reply *reply = reply_at(i);

        if (reply->node != node)
            continue;
        (void)echoes_take(reply->came.octets, reply->came.length);
        if (replies.count > 0)
            hear(heard, &replies.first[replies.count - 1]);
    }
}

void probes_send(const struct route *route, const struct asked *asked)
{
    static struct datagram request;
    struct heard heard = {0, false};

    for (uint32_t hops = 1; hops <= asked->hops; hops++) {
        begin();
        probes_build(route, asked, hops, &request);
        (void)echoes_take(request.octets, request.length);
        (void)net_send(route->node, route->port, &request);
        net_start_wires();
        run();
        take_replies(route->node, &heard);
        if (heard.arrived || hops == heard.leg + PATIENCE)
            return;
    }
}
