/*
 * meaning.c: what a datagram names, where it is read (W-214).
 *
 * Four octets name a system wherever they are read; one octet names a system of
 * the domain in which it is read. So each copy that a port takes is read as it
 * will be behind that port, one octet filled in from the port's own domain. It
 * has to name the destination and the source, or the path, that the datagram
 * named at the port by which it came. The relay is asked for the addresses of
 * its ports alone, and not for what it filled in.
 *
 * A reply to an echo is no copy. It has to name who asked, as the request named
 * him where it came, and to come from an address of the mission's own (W-203).
 */
#include "meaning.h"

#include <inttypes.h>
#include <stdio.h>

#include "told.h"

static uint32_t same, other;

uint32_t meaning_same(void)
{
    return same;
}

uint32_t meaning_count(void)
{
    return same + other;
}

hj_fields meaning_at(const struct node *node, uint32_t port,
                     const struct datagram *datagram)
{
    hj_fields fields = hj_read(datagram->octets, datagram->length).fields;
    uint32_t address = hj_get_port(LENT_BOARD(node), port).address;

    if (fields.extended)
        return fields;
    fields.extended = 1;
    fields.destination_low |= address & 0xffffff00;
    if (fields.has_source)
        fields.source_low |= address & 0xffffff00;
    return fields;
}

static bool names_the_same(const hj_fields *one, const hj_fields *two)
{
    return one->has_source == two->has_source &&
           one->destination_low == two->destination_low &&
           one->source_low == two->source_low;
}

/* A reply names the request's source as its destination, and has a source that
 * is the mission's own. */
static bool names_the_asker(uint32_t node, uint32_t port,
                            const hj_fields *reply, const hj_fields *request)
{
    uint32_t mission = node_mission(&nodes[node], port);

    return reply->has_source &&
           reply->destination_low == request->source_low &&
           node_has(&nodes[node], mission, reply->source_low);
}

/* A copy also has to be as long as its length field says. */
static void hold(uint32_t node, uint32_t port, const struct kept *kept,
                 const hj_fields *came)
{
    static struct datagram copy;
    hj_fields named;

    kept_copy(kept, port, &copy);
    named = meaning_at(&nodes[node], port, &copy);
    if (hj_read(copy.octets, copy.length).length == copy.length &&
        (kept->reply ? names_the_asker(node, port, &named, came)
                     : names_the_same(&named, came))) {
        same++;
        return;
    }
    other++;
    printf("   NOT AS NAMED: %s port %" PRIu32 " took ", nodes[node].name,
           port);
    told_data(&kept->came);
    told_addresses(&named);
    printf(kept->reply ? "; the request came" : "; it came");
    told_addresses(came);
    puts("");
}

/* What came by the port, and what is kept because of it. */
static void hold_each(uint32_t node, uint32_t port,
                      const struct datagram *datagram, const struct kept *kept)
{
    hj_fields came = meaning_at(&nodes[node], port, datagram);

    for (uint32_t taker = 0; taker < HJ_PORTS; taker++) {
        if (hj_took(kept->verdict) >> taker & 1)
            hold(node, taker, kept, &came);
    }
}

void meaning_hold(uint32_t node, uint32_t port, const struct kept *kept)
{
    hold_each(node, port, &kept->came, kept);
}

void meaning_hold_reply(uint32_t node, uint32_t port,
                        const struct datagram *request,
                        const struct kept *reply)
{
    hold_each(node, port, request, reply);
}
