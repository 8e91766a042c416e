/*
 * The verdict on one received datagram, in the steps of page 01 with those of
 * page 02, W-207, for flooded ones. What the datagram is, and the local half,
 * is in plain_datagram.c; what comes of the copies for the ports wanted is in
 * plain_copies.c.
 *
 * The steps of the onward half hand on a set of ports that only grows smaller
 * and end the half by a refusal. A set that is empty from the start, without a
 * refusal, is "not asked".
 *
 * The awkward case: a flooded datagram's pair is kept as soon as its ports are
 * asked for, whatever becomes of them.
 */
#include "plain_copies.h"
#include "plain_list.h"
#include "plain_pairs.h"

static plain_set without(plain_set set, uint32_t port)
{
    set.bits &= ~((uint32_t)1 << port);
    return set;
}

/* Keeps the pair. The destination decides nothing here. */
static plain_refusal wanted_for_flood(const plain_view *view,
                                      const plain_datagram *d,
                                      plain_set *wanted)
{
    const plain_fields *fields = &d->header.fields;
    plain_pair pair = {fields->stamp_format, d->source, fields->p_field,
                       fields->time, d->second};
    plain_pair_fate fate = plain_pairs_enter(view->mission, &pair);

    if (fate == PLAIN_PAIR_KNOWN)
        return PLAIN_GOOD;
    if (fate == PLAIN_PAIR_NO_PLACE)
        return PLAIN_PAIRS_HELD;
    *wanted = without(plain_own_ports(view), d->arrival);
    return wanted->bits != 0 ? PLAIN_GOOD : PLAIN_NO_ROUTE;
}

static plain_refusal wanted_for_group(const plain_view *view,
                                      const plain_datagram *d,
                                      plain_set *wanted)
{
    if (d->subscribed && without(plain_own_ports(view), d->arrival).bits == 0)
        return PLAIN_GOOD;
    if (d->group != NULL)
        *wanted = without(d->group->send, d->arrival);
    return wanted->bits != 0 ? PLAIN_GOOD : PLAIN_NO_ROUTE;
}

static plain_refusal wanted_for_path(const plain_datagram *d,
                                     plain_set *wanted)
{
    if (d->place == NULL)
        return PLAIN_NO_ROUTE;
    *wanted = without(d->place->send, d->arrival);
    return wanted->bits != 0 || d->place->here ? PLAIN_GOOD : PLAIN_NO_ROUTE;
}

/* Only here the copies have a route, which may ask for elements. */
static plain_refusal wanted_by_route(const plain_view *view,
                                     const plain_datagram *d,
                                     plain_copies *copies)
{
    const plain_record *route =
        plain_list_longest(view->board, view->mission->number, view->routes,
                           d->destination);

    if (route == NULL)
        return PLAIN_NO_ROUTE;
    copies->ports.bits = (uint32_t)1 << route->port;
    copies->capabilities = route->capabilities;
    return PLAIN_GOOD;
}

/* The first line that fits decides. Where it wants no port without a refusal,
 * the onward half is not asked. */
static plain_refusal wanted_ports(const plain_view *view,
                                  const plain_datagram *d, uint32_t local,
                                  plain_copies *copies)
{
    plain_set *wanted = &copies->ports;

    wanted->bits = 0;
    copies->capabilities = PLAIN_ASKS_NOTHING;
    if (d->for_this_node)
        return PLAIN_GOOD;
    if (!view->board->router)
        return local != PLAIN_LOCAL_NO ? PLAIN_GOOD : PLAIN_NOT_FOR_US;
    if (d->flooded)
        return wanted_for_flood(view, d, wanted);
    if (d->our_broadcast) {
        *wanted = without(plain_own_ports(view), d->arrival);
        return PLAIN_GOOD;
    }
    if (d->class == PLAIN_MULTICAST)
        return wanted_for_group(view, d, wanted);
    if (d->by_path)
        return wanted_for_path(d, wanted);
    return wanted_by_route(view, d, copies);
}

static uint32_t onward_half(const plain_view *view, const plain_datagram *d,
                            plain_slot slot, plain_copies *copies,
                            plain_verdict *verdict)
{
    plain_entry entry = {slot, (uint16_t)d->header.fields.precedence};
    plain_refusal refusal = wanted_ports(view, d, verdict->local, copies);

    if (refusal != PLAIN_GOOD)
        return refusal;
    if (copies->ports.bits == 0)
        return PLAIN_ONWARD_NOT_ASKED;
    refusal = plain_copies_grant(view, d, copies);
    if (refusal != PLAIN_GOOD)
        return refusal;
    refusal = plain_copies_put(view, copies, entry, verdict);
    return refusal != PLAIN_GOOD ? (uint32_t)refusal : PLAIN_ONWARD_SENT;
}

static void count_halves(plain_counters *counters,
                         const plain_verdict *verdict)
{
    if (verdict->local == PLAIN_LOCAL_DELIVERED)
        plain_count(counters, PLAIN_IN_DELIVERS);
    else if (verdict->local != PLAIN_LOCAL_NO)
        plain_count_refusal(counters, (plain_refusal)verdict->local);
    if (verdict->onward == PLAIN_ONWARD_SENT)
        plain_count(counters, PLAIN_FORW_DATAGRAMS);
    else if (verdict->onward != PLAIN_ONWARD_NOT_ASKED)
        plain_count_refusal(counters, (plain_refusal)verdict->onward);
}

/* The refusals that count nothing. Where none is given the second is accepted,
 * whatever the datagram then comes to. */
static plain_refusal judge_call(const plain_view *view, uint32_t arrival,
                                uint32_t second, size_t room)
{
    if (plain_list_too_long(view->routes.count))
        return PLAIN_SET_NUMBER;
    if (!plain_set_has(plain_own_ports(view), arrival))
        return PLAIN_NO_PORT;
    if (room < PLAIN_OUTPUT_ROOM)
        return PLAIN_NO_ROOM;
    return plain_second_accept(view->mission, second);
}

plain_verdict plain_receive(const plain_view *view, uint32_t arrival,
                            plain_slot slot, uint32_t second,
                            const uint8_t *octets, size_t count,
                            uint8_t *output, size_t room)
{
    plain_verdict verdict = {PLAIN_GOOD, 0, 0, {0}, {0}, {0}, 0, 0};
    plain_datagram d;
    plain_copies copies;

    verdict.refusal = judge_call(view, arrival, second, room);
    if (verdict.refusal != PLAIN_GOOD)
        return verdict;
    plain_count(&view->mission->counters, PLAIN_IN_RECEIVES);
    verdict.refusal = plain_datagram_judge(view, arrival, octets, count, &d);
    if (verdict.refusal != PLAIN_GOOD) {
        plain_count_refusal(&view->mission->counters, verdict.refusal);
        return verdict;
    }
    d.second = second;
    verdict.local = plain_local_half(&d);
    verdict.arriving_octets = d.header.header_length;
    verdict.onward = onward_half(view, &d, slot, &copies, &verdict);
    count_halves(&view->mission->counters, &verdict);
    plain_copies_write(&d, &copies, &verdict, octets, output);
    return verdict;
}
