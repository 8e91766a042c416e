/*
 * A datagram as the relay sees it: the checks of page 01 that end a call, with
 * 28 of page 02, W-207, what is then looked up, and the local half.
 *
 * The awkward cases: a path is never compared with an address, even of the
 * same number, so a datagram has either a destination or a path and the
 * findings of the other kind stay "no"; and a one-octet address is filled in
 * from the arrival port, never from the port it leaves by.
 */
#include "plain_datagram.h"

#include "plain_search.h"

/* The assigned numbers of table 3-2, as 2^n; 0 is reserved, not assigned. */
#define ASSIGNED_TP_IDS \
    (1u << 1 | 1u << 4 | 1u << 5 | 1u << 6 | 1u << 8 | 1u << 10 | 1u << 11)

/* Steps 5 and 6: fills in what is one octet, then judges the classes. */
static plain_refusal judge_addresses(const plain_view *view, plain_datagram *d)
{
    const plain_fields *fields = &d->header.fields;
    plain_address own = view->board->ports[d->arrival].address;
    uint32_t domain = fields->extended ? 0 : plain_domain(own);
    uint32_t destination = domain | (uint32_t)fields->destination.low;

    if (!fields->extended && own.bits >> 24 != 10)
        return PLAIN_NO_DOMAIN;
    d->by_path = !fields->source_present;
    d->class = PLAIN_INVALID;
    if (d->by_path) {
        d->path.bits = destination;
        return plain_path_valid(d->path) ? PLAIN_GOOD : PLAIN_BAD_ADDRESS;
    }
    d->destination.bits = destination;
    d->source.bits = domain | (uint32_t)fields->source.low;
    d->class = plain_address_class(d->destination);
    if (d->class == PLAIN_INVALID ||
        plain_address_class(d->source) != PLAIN_UNICAST)
        return PLAIN_BAD_ADDRESS;
    return PLAIN_GOOD;
}

/* Steps 2 to 6, and 28 after them. */
static plain_refusal judge(const plain_view *view, const uint8_t *octets,
                           size_t count, plain_datagram *d)
{
    const plain_fields *fields = &d->header.fields;
    plain_refusal refusal = plain_header_read(octets, count, &d->header);

    if (refusal != PLAIN_GOOD)
        return refusal;
    d->flooded = fields->routing == PLAIN_ROUTING_FLOOD;
    if (fields->ipv6 ||
        (fields->routing != PLAIN_ROUTING_POINT_TO_POINT && !d->flooded))
        return PLAIN_NOT_CARRIED;
    refusal = judge_addresses(view, d);
    if (refusal != PLAIN_GOOD)
        return refusal;
    if (d->flooded &&
        (d->by_path || fields->stamp_format == PLAIN_STAMP_NONE))
        return PLAIN_FLOOD_UNMARKED;
    return PLAIN_GOOD;
}

/* Looks up all that either half will ask. */
static void recognise(const plain_view *view, plain_datagram *d)
{
    d->for_this_node = false;
    d->our_broadcast = false;
    d->subscribed = false;
    d->group = NULL;
    d->place = NULL;
    if (d->by_path) {
        d->place = plain_search_path(view->mission, d->path);
        return;
    }
    d->for_this_node = d->class == PLAIN_LIMITED_BROADCAST ||
                       plain_search_own(view, d->destination);
    d->our_broadcast = plain_search_broadcast(view, d->destination);
    if (d->class == PLAIN_MULTICAST)
        d->group = plain_search_group(view->mission, d->destination);
    if (d->group != NULL)
        d->subscribed = plain_set_has(d->group->subscribed, d->arrival);
}

uint32_t plain_local_half(const plain_datagram *d)
{
    bool here = d->place != NULL && d->place->here;

    if (!d->for_this_node && !d->our_broadcast && !d->subscribed && !here &&
        !d->header.fields.intermediate)
        return PLAIN_LOCAL_NO;
    if ((ASSIGNED_TP_IDS >> d->header.fields.tp_id & 1) == 0)
        return PLAIN_UNKNOWN_TP_ID;
    return PLAIN_LOCAL_DELIVERED;
}

plain_refusal plain_datagram_judge(const plain_view *view, uint32_t arrival,
                                   const uint8_t *octets, size_t count,
                                   plain_datagram *d)
{
    plain_refusal refusal;

    d->arrival = arrival;
    refusal = judge(view, octets, count, d);
    if (refusal == PLAIN_GOOD)
        recognise(view, d);
    return refusal;
}
