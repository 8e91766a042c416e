/*
 * legs.c: which leg a reply speaks of.
 *
 * A request with intermediate delivery is delivered at each relay on its way,
 * and each of them answers it. The first gets the hop count that was sent, each
 * further one gets one less, and the one that gets 1 does not send it on. The
 * reply says the hop count that was seen. So a reply comes from the end of leg
 *
 *     sent - seen + 1
 *
 * whatever order the replies come back in, and a request that was sent with
 * hop count h asks the relays at the ends of legs 1 to h. One with hop count 0
 * is answered by the first relay, as one with 1 is.
 *
 * The awkward case is a request without intermediate delivery. It asks nobody
 * but the destination: its answer says how far that is, and its silence does
 * not say where silence begins.
 */
#include "legs.h"

#include <string.h>

uint32_t legs_number(const struct echo *request, const struct echo *reply)
{
    return request->fields.hop_count - reply->says.hop_count + 1;
}

static void ask(struct legs *legs, const struct echo *request)
{
    uint32_t hops = request->fields.hop_count;
    uint32_t furthest = hops > 0 ? hops : 1;

    if (!request->fields.intermediate) {
        legs->unanswered++;
        return;
    }
    for (uint32_t leg = 1; leg <= furthest; leg++)
        legs->of[leg].asked++;
    if (furthest > legs->furthest)
        legs->furthest = furthest;
}

static void reach(struct legs *legs, uint32_t number)
{
    if (number > legs->last)
        legs->last = number;
}

static void answer(struct legs *legs, const struct match *match,
                   const struct echo *reply)
{
    const struct echo *request = match->request;
    uint32_t number = legs_number(request, reply);
    struct leg *leg = &legs->of[number];

    if (!request->fields.intermediate) {
        legs->unanswered -= legs->unanswered > 0;
        leg->asked++;
    }
    leg->answered++;
    if (leg->reply == NULL) {
        leg->request = request;
        leg->reply = reply;
    }
    reach(legs, number);
    legs->arrived = legs->arrived || match->fit == FITS_DESTINATION;
}

/* A reply that fits several requests, one of which may be of this way. */
static void doubt(struct legs *legs, const struct match *match,
                  const struct echo *reply)
{
    for (uint32_t i = 0; i < requests.count; i++) {
        const struct echo *request = &requests.first[i];

        if (!echoes_are_one_run(request, legs->first) ||
            matches_fit(reply, request) != match->fit)
            continue;
        legs->of[legs_number(request, reply)].unclear++;
        legs->unclear++;
        reach(legs, legs_number(request, reply));
    }
}

static void hear(struct legs *legs, const struct echo *reply)
{
    struct match match = matches_find(reply);

    if (match.count > 1)
        doubt(legs, &match, reply);
    else if (match.count == 1 && echoes_are_one_run(match.request, legs->first))
        answer(legs, &match, reply);
}

static void ask_all(struct legs *legs)
{
    for (uint32_t i = 0; i < requests.count; i++) {
        if (echoes_are_one_run(&requests.first[i], legs->first))
            ask(legs, &requests.first[i]);
    }
}

void legs_find(const struct echo *first, struct legs *legs)
{
    memset(legs, 0, sizeof *legs);
    legs->first = first;
    ask_all(legs);
    for (uint32_t i = 0; i < replies.count; i++)
        hear(legs, &replies.first[i]);
}

uint32_t legs_silent(const struct legs *legs)
{
    return legs->arrived || legs->furthest <= legs->last ? 0 : legs->last + 1;
}

bool legs_is_skipped(const struct legs *legs, uint32_t leg)
{
    return leg < legs->last && legs->of[leg].asked > 0 &&
           legs->of[leg].answered == 0;
}

bool legs_any_skipped(const struct legs *legs)
{
    for (uint32_t leg = 1; leg < legs->last; leg++) {
        if (legs_is_skipped(legs, leg))
            return true;
    }
    return false;
}

bool legs_any_missing(const struct legs *legs)
{
    for (uint32_t leg = 1; leg <= legs->last; leg++) {
        if (legs->of[leg].answered < legs->of[leg].asked)
            return true;
    }
    return legs->unanswered > 0;
}

static bool same_relay(const struct leg *one, const struct leg *other)
{
    return one->reply != NULL && other->reply != NULL &&
           one->reply->fields.source_low == other->reply->fields.source_low;
}

/* The earlier leg from whose end the same relay answers; 0 for none. */
static uint32_t met_before(const struct legs *legs, uint32_t leg)
{
    uint32_t earlier = leg - 1;

    while (earlier > 0 && !same_relay(&legs->of[earlier], &legs->of[leg]))
        earlier--;
    return earlier;
}

uint32_t legs_ring(const struct legs *legs, uint32_t *earlier)
{
    for (uint32_t leg = 2; leg <= legs->last; leg++) {
        *earlier = met_before(legs, leg);
        if (*earlier > 0)
            return leg;
    }
    return 0;
}
