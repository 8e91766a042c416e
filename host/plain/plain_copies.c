/*
 * The copies of a received datagram: page 01 from "With ports wanted" on, as
 * page 02, W-214, changes it.
 *
 * A copy's header is rewritten where its addresses are one octet and its port
 * lies in another domain, and where its route asks for an element that the
 * header lacks. A route wants one port, and without a route nothing is added.
 * So all copies that are rewritten are rewritten alike, and one set of fields
 * does for them.
 *
 * The awkward cases: 10 looks at the hop count that came, so an added one is
 * never used up here; addresses are widened by what they meant at the arrival
 * port, whatever the port that they leave by; and a path is never rewritten,
 * for it has no route, and a copy that would have to be widened is struck out
 * by 13.
 */
#include "plain_copies.h"

#include <string.h>

/* Those of the set whose ports lie in another domain than the arrival port. A
 * port that is not the mission's has no address and no MTU for it; a group or
 * a path names such a port only where the board was made fresh alone. */
static plain_set outside_domain(const plain_view *view, plain_set set,
                                uint32_t arrival)
{
    const plain_port *ports = view->board->ports;
    uint32_t domain = plain_domain(ports[arrival].address);
    plain_set own = plain_own_ports(view);

    for (uint32_t port = 0; port < PLAIN_PORTS; port++)
        if (plain_set_has(own, port) &&
            plain_domain(ports[port].address) == domain)
            set.bits &= ~((uint32_t)1 << port);
    return set;
}

static void widen(const plain_datagram *d, plain_fields *fields)
{
    fields->extended = 1;
    fields->destination.low = d->destination.bits;
    fields->source.low = d->source.bits;
}

/* Who has the rewritten header, and what it says. */
static void settle_headers(const plain_datagram *d, plain_set far,
                           plain_copies *copies)
{
    plain_fields *fields = &copies->fields;
    uint32_t asked = copies->capabilities;
    bool add_checksum = plain_asks_for(asked, PLAIN_ASKS_CHECKSUM) &&
                        !d->header.fields.checksum_present;
    bool add_hop = plain_asks_for(asked, PLAIN_ASKS_HOP_COUNT) &&
                   !d->header.fields.hop_present;

    copies->rewritten = add_checksum || add_hop ? copies->ports : far;
    if (copies->rewritten.bits == 0)
        return;
    *fields = d->header.fields;
    if (far.bits != 0)
        widen(d, fields);
    if (add_checksum)
        fields->checksum_present = 1;
    if (fields->hop_present)
        fields->hop--;
    if (add_hop) {
        fields->hop_present = 1;
        fields->hop = PLAIN_FIRST_HOP_COUNT;
    }
    copies->rewritten_octets = plain_header_measure(fields);
}

/* Strikes out the ports that are too small. An MTU is at most 8,191, so what
 * is left fits the length field too. */
static void strike_small(const plain_view *view, const plain_header *header,
                         plain_copies *copies)
{
    plain_set *ports = &copies->ports;
    uint32_t data = header->length - header->header_length;

    ports->bits &= plain_own_ports(view).bits;
    for (uint32_t port = 0; ports->bits >> port != 0; port++) {
        uint32_t size = plain_set_has(copies->rewritten, port)
                            ? copies->rewritten_octets + data
                            : header->length;

        if (view->board->ports[port].mtu < size)
            ports->bits &= ~((uint32_t)1 << port);
    }
}

plain_refusal plain_copies_grant(const plain_view *view,
                                 const plain_datagram *d,
                                 plain_copies *copies)
{
    const plain_fields *fields = &d->header.fields;
    plain_set far = {0};

    if (fields->hop_present && fields->hop <= 1)
        return PLAIN_HOPS_USED_UP;
    if (!fields->extended)
        far = outside_domain(view, copies->ports, d->arrival);
    if (d->by_path) {
        copies->ports.bits &= ~far.bits;
        copies->rewritten.bits = 0;
        if (copies->ports.bits == 0)
            return PLAIN_LEAVES_DOMAIN;
    } else {
        settle_headers(d, far, copies);
    }
    strike_small(view, &d->header, copies);
    return copies->ports.bits != 0 ? PLAIN_GOOD : PLAIN_TOO_BIG;
}

plain_refusal plain_copies_put(const plain_view *view,
                               const plain_copies *copies, plain_entry entry,
                               plain_verdict *verdict)
{
    plain_mission *mission = view->mission;

    for (uint32_t port = 0; copies->ports.bits >> port != 0; port++) {
        if (!plain_set_has(copies->ports, port))
            continue;
        if (plain_queue_put(&mission->queues[port], entry)) {
            verdict->took.bits |= (uint32_t)1 << port;
        } else {
            verdict->dropped.bits |= (uint32_t)1 << port;
            plain_count(&mission->counters, PLAIN_OUT_DISCARDS);
        }
    }
    verdict->rewritten.bits = verdict->took.bits & copies->rewritten.bits;
    if (verdict->rewritten.bits != 0)
        verdict->rewritten_octets = copies->rewritten_octets;
    return verdict->took.bits != 0 ? PLAIN_GOOD : PLAIN_ALL_FULL;
}

/* Where the header of the lowest of these ports stands. */
static uint8_t *first_header(plain_set ports, uint8_t *output)
{
    uint32_t port = 0;

    while (!plain_set_has(ports, port))
        port++;
    return output + plain_header_at(port);
}

/* Copies the first header to the others of these ports. */
static void copy_to_others(plain_set ports, const uint8_t *first,
                           uint32_t count, uint8_t *output)
{
    plain_set others = {ports.bits & (ports.bits - 1)};

    for (uint32_t port = 0; others.bits >> port != 0; port++)
        if (plain_set_has(others, port))
            memcpy(output + plain_header_at(port), first, count);
}

void plain_copies_write(const plain_datagram *d, const plain_copies *copies,
                        const plain_verdict *verdict, const uint8_t *octets,
                        uint8_t *output)
{
    const plain_header *header = &d->header;
    plain_set rewritten = verdict->rewritten;
    plain_set kept = {verdict->took.bits & ~rewritten.bits};

    if (kept.bits != 0) {
        uint8_t *first = first_header(kept, output);

        plain_header_send_on(header, octets, first);
        copy_to_others(kept, first, header->header_length, output);
    }
    if (rewritten.bits != 0) {
        uint8_t *first = first_header(rewritten, output);

        plain_header_write(&copies->fields, copies->rewritten_octets,
                           header->length - header->header_length, first);
        copy_to_others(rewritten, first, copies->rewritten_octets, output);
    }
}
