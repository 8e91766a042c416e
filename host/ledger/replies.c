/*
 * replies.c: a reply and its request, field by field (003, 3.3.4.7.5). Of the
 * settings only the ports' addresses are known here, so the MTU that the reply
 * tells is not looked at, and of a cut only that what is there is the front of
 * what was sent.
 *
 * The awkward case is an address of one octet, which means what the port by
 * which it is read makes of it: the request is read by the arrival port, the
 * reply by the port that it goes out by.
 */
#include "replies.h"

#include <stdbool.h>
#include <string.h>

#include "headers.h"
#include "shared/arriving.h"

#define SCMP 1
#define REQUEST 8
#define FIRST_HOP_COUNT 64
#define REQUEST_FIXED 8
#define REPLY_FIXED 26
#define IDENTIFIER_AT 4 /* and behind it the sequence number */
#define HOPS_AT 8
#define FORMAT_AT 9
#define STAMP_AT 10
#define RATE_AT 22

/* So many octets as a number. */
static uint64_t number_at(const uint8_t *octets, unsigned count)
{
    uint64_t number = 0;

    for (unsigned i = 0; i < count; i++)
        number = number << 8 | octets[i];
    return number;
}

/* The timestamp as a number, in format 2 with the P-field before the time. */
static uint64_t stamp_of(const struct arriving *came)
{
    unsigned octets = 1 + came->p_field / 4 % 4 + came->p_field % 4;

    if (came->stamp_format != 2)
        return came->time;
    return (uint64_t)came->p_field << 8 * octets | came->time;
}

/* From the address that it was for, or from the arrival port's. */
static bool goes_back(uint32_t arrival, const struct arriving *came,
                      uint32_t port, const struct arriving *sent)
{
    uint32_t from = headers_named(sent, sent->source, port);

    return headers_named(sent, sent->destination, port) ==
               headers_named(came, came->source, arrival) &&
           (from == headers_named(came, came->destination, arrival) ||
            from == headers_address(arrival));
}

static bool header_is_made(const struct arriving *came,
                           const struct arriving *sent)
{
    return sent->tp_id == SCMP && sent->has_hop_count &&
           sent->hop_count == FIRST_HOP_COUNT && sent->has_source &&
           sent->has_qos == came->has_qos &&
           sent->precedence == came->precedence && sent->routing == 0 &&
           sent->stamp_format == 0 && !sent->has_expanded &&
           !sent->intermediate && sent->control == sent->shortest;
}

static const char *message_wrong(const struct arriving *came,
                                 const uint8_t *asked, size_t asked_count,
                                 const uint8_t *told, size_t told_count)
{
    if (asked_count < REQUEST_FIXED || asked[0] != REQUEST || asked[1] != 0)
        return "a reply to what is no request";
    if (told_count < REPLY_FIXED || told[0] != 0 || told[1] != 0)
        return "a reply that is none";
    if (memcmp(asked + IDENTIFIER_AT, told + IDENTIFIER_AT, 4) != 0)
        return "another identifier or sequence number";
    if (told[HOPS_AT] != came->hop_count ||
        told[FORMAT_AT] != came->stamp_format ||
        number_at(told + STAMP_AT, 8) != stamp_of(came) ||
        number_at(told + RATE_AT, 4) != 0)
        return "a reply tells another hop count, timestamp or rate";
    return told_count - REPLY_FIXED <= asked_count - REQUEST_FIXED &&
                   memcmp(asked + REQUEST_FIXED, told + REPLY_FIXED,
                          told_count - REPLY_FIXED) == 0
               ? NULL
               : "a reply has other data";
}

const char *reply_wrong(uint32_t arrival, const uint8_t *request, size_t lent,
                        uint32_t port, const uint8_t *reply, size_t count)
{
    struct arriving came = arriving_read(request, lent);
    struct arriving sent = arriving_read(reply, count);

    if (came.length > lent || came.header > came.length ||
        sent.length != count || sent.header > count)
        return "a length field that is not header and data";
    if (!came.has_source || !came.has_hop_count ||
        came.routing == ARRIVING_FLOODED)
        return "a reply to what gets none";
    if (!goes_back(arrival, &came, port, &sent))
        return "a reply names another system";
    if (!header_is_made(&came, &sent))
        return "a reply's header says something else";
    return message_wrong(&came, request + came.header,
                         came.length - came.header, reply + sent.header,
                         count - sent.header);
}
