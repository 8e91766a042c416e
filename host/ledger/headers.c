/*
 * headers.c: each header sent on is read by itself, from the answer. It has to
 * name what the arriving octets named, and to have the elements that they had,
 * but for a hop count one lower or new and a checksum that is new.
 *
 * The awkward case is a header that ends in a5, which an answer shows without
 * its end: it is read with as many of them behind it as a port has room for.
 */
#include "headers.h"

#include <string.h>

#define PORTS 8
#define HEADER_ROOM 50
#define UNTOUCHED 0xa5
#define FIRST_HOP_COUNT 64

static uint32_t addresses[PORTS];

void headers_begin(void)
{
    memset(addresses, 0, sizeof addresses);
}

void headers_note_port(uint32_t port, uint32_t address)
{
    addresses[port % PORTS] = address;
}

uint32_t headers_address(uint32_t port)
{
    return addresses[port % PORTS];
}

uint32_t headers_named(const struct arriving *header, uint32_t address,
                       uint32_t port)
{
    return header->extended ? address
                            : (addresses[port % PORTS] & 0xffffff00) | address;
}

static bool names_alike(const struct arriving *came, uint32_t arrival,
                        const struct arriving *sent, uint32_t port)
{
    return came->has_source == sent->has_source &&
           headers_named(came, came->destination, arrival) ==
               headers_named(sent, sent->destination, port) &&
           (!came->has_source ||
            headers_named(came, came->source, arrival) ==
                headers_named(sent, sent->source, port));
}

/* What stands in an expanded QOS is not looked at. */
static bool says_alike(const struct arriving *came,
                       const struct arriving *sent)
{
    return came->tp_id == sent->tp_id && came->has_qos == sent->has_qos &&
           came->precedence == sent->precedence &&
           came->routing == sent->routing &&
           came->stamp_format == sent->stamp_format &&
           came->p_field == sent->p_field && came->time == sent->time &&
           came->has_expanded == sent->has_expanded &&
           came->intermediate == sent->intermediate &&
           (sent->has_checksum || !came->has_checksum);
}

static bool hops_follow(const struct arriving *came,
                        const struct arriving *sent)
{
    if (came->has_hop_count)
        return sent->has_hop_count && sent->hop_count + 1 == came->hop_count;
    return !sent->has_hop_count || sent->hop_count == FIRST_HOP_COUNT;
}

static const char *wrong_with(uint32_t arrival, const struct arriving *came,
                              uint32_t port, const struct arriving *sent)
{
    if (!names_alike(came, arrival, sent, port))
        return "a header names another system";
    if (!says_alike(came, sent))
        return "a header says something else";
    if (!hops_follow(came, sent))
        return "another hop count";
    return sent->length - sent->header == came->length - came->header
               ? NULL
               : "a length field that is not header and data";
}

/* The octets up to the next comma, which is passed over. */
static struct arriving next_header(struct trace_word *out)
{
    const char *comma = memchr(out->text, ',', out->length);
    struct trace_word word = *out;
    uint8_t octets[TRACE_MOST_OCTETS];
    size_t count = 0;

    if (comma != NULL)
        word.length = (size_t)(comma - out->text);
    trace_octets(word, octets, &count);
    out->text += word.length + (comma != NULL);
    out->length -= word.length + (comma != NULL);
    if (count < HEADER_ROOM)
        memset(octets + count, UNTOUCHED, HEADER_ROOM - count);
    return arriving_read(octets, HEADER_ROOM);
}

const char *headers_wrong(uint32_t arrival, const struct arriving *came,
                          uint32_t ports, struct trace_word out)
{
    const char *wrong = NULL;

    for (uint32_t port = 0; port < PORTS && wrong == NULL; port++) {
        struct arriving sent;

        if ((ports >> port & 1) == 0)
            continue;
        sent = next_header(&out);
        wrong = wrong_with(arrival, came, port, &sent);
    }
    return wrong;
}
