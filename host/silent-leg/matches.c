/*
 * matches.c: a reply brings back identifier, sequence number, timestamp and
 * data of its request, the data perhaps cut, and goes to who asked. It saw a
 * hop count that is not above the one that was sent. It does not say where the
 * request was going, so requests to two destinations with the same numbers may
 * both fit. The one whose destination sent the reply is then taken before the
 * others. Where several are left, none is: a guess would call a silent leg
 * good.
 *
 * The awkward case is a request with one-octet addresses. It may have been
 * written with four on its way, and its reply then comes back with four: the
 * reply's destination, which is the request's source, tells the domain.
 */
#include "matches.h"

#include <string.h>

/* The timestamp of a request as a reply brings it back. A P-field says how many
 * octets follow it: one to four, and none to three. */
static uint64_t stamp_of(const hj_fields *fields)
{
    uint32_t following =
        (fields->p_field >> 2 & 3) + 1 + (fields->p_field & 3);

    if (fields->stamp_format != HJ_STAMP_EXPLICIT)
        return fields->time;
    return (uint64_t)fields->p_field << 8 * following | fields->time;
}

static uint32_t data_octets(const struct echo *echo)
{
    return echo->message_octets - echo->says.data_from;
}

static bool brings_back(const struct echo *reply, const struct echo *request)
{
    return reply->says.identifier == request->says.identifier &&
           reply->says.sequence == request->says.sequence &&
           (reply->says.format & 3) == request->fields.stamp_format &&
           reply->says.stamp == stamp_of(&request->fields) &&
           data_octets(reply) <= data_octets(request) &&
           memcmp(reply->message + reply->says.data_from,
                  request->message + request->says.data_from,
                  data_octets(reply)) == 0;
}

/* An address of the request as the reply would have it. */
static uint64_t seen_as(uint64_t address, const struct echo *request,
                        const struct echo *reply)
{
    if (reply->fields.extended && !request->fields.extended)
        address |= reply->fields.destination_low & 0xffffff00;
    return address;
}

enum fit matches_fit(const struct echo *reply, const struct echo *request)
{
    uint64_t asker = seen_as(request->fields.source_low, request, reply);
    uint64_t asked = seen_as(request->fields.destination_low, request, reply);

    if (!brings_back(reply, request) ||
        reply->fields.destination_low != asker ||
        reply->says.hop_count > request->fields.hop_count)
        return NO_FIT;
    return reply->fields.source_low == asked ? FITS_DESTINATION : FITS;
}

struct match matches_find(const struct echo *reply)
{
    struct match best = {NO_FIT, 0, NULL};

    for (uint32_t i = 0; i < requests.count; i++) {
        const struct echo *request = &requests.first[i];
        enum fit fit = matches_fit(reply, request);

        if (fit > best.fit)
            best = (struct match){fit, 0, request};
        best.count += fit != NO_FIT && fit == best.fit;
    }
    return best;
}
