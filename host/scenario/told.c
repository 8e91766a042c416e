/*
 * told.c: the timeline as it is printed, for a reader who knows water and not
 * headers: each number of the library stands with its words.
 *
 * While it is quiet, sends and arrivals are only counted, so that thirty-two
 * like orders do not hide the one that matters; how many there were is told.
 */
#include "told.h"

#include <inttypes.h>
#include <stdio.h>

#include "messages.h"
#include "names.h"

static bool is_quiet;
static uint32_t sent_unseen, arrived_unseen, dropped_unseen, lost_unseen;

bool told_is_quiet(void)
{
    return is_quiet;
}

static void told_set(uint32_t ports)
{
    const char *between = "";

    for (uint32_t port = 0; port < HJ_PORTS; port++) {
        if (ports >> port & 1) {
            printf("%s%" PRIu32, between, port);
            between = ",";
        }
    }
}

void told_quiet(bool quiet)
{
    is_quiet = quiet;
    if (!quiet)
        printf("              (not shown: %" PRIu32 " sent, %" PRIu32
               " arrivals, %" PRIu32 " of them dropped by a full port; %" PRIu32
               " lost)\n",
               sent_unseen, arrived_unseen, dropped_unseen, lost_unseen);
    sent_unseen = arrived_unseen = dropped_unseen = lost_unseen = 0;
}

void told_scene(const char *title)
{
    printf("\n== %s\n", title);
}

void told_say(const char *text)
{
    printf("   %s\n", text);
}

/* ---- One event --------------------------------------------------------- */

static void at_now(void)
{
    uint64_t tenths = (now + 50) / 100;

    printf("%5" PRIu64 ".%04" PRIu64 " s  ", tenths / 10000, tenths % 10000);
}

static void told_message(const hj_message *message)
{
    printf("echo %s %" PRIu32 ".%" PRIu32,
           message->type == HJ_ECHO_REQUEST ? "request" : "reply",
           message->identifier, message->sequence);
}

void told_data(const struct datagram *datagram)
{
    hj_message message;

    if (message_of(datagram, &message))
        told_message(&message);
    else
        printf("\"%.*s\"", (int)(datagram->length - datagram->header),
               (const char *)datagram->octets + datagram->header);
}

static void address(uint64_t number, uint32_t extended)
{
    if (extended)
        printf("%u.%u.%u.", (unsigned)(number >> 24 & 0xff),
               (unsigned)(number >> 16 & 0xff), (unsigned)(number >> 8 & 0xff));
    printf("%u", (unsigned)(number & 0xff));
}

void told_addresses(const hj_fields *fields)
{
    if (fields->has_source) {
        printf(" from ");
        address(fields->source_low, fields->extended);
    }
    printf(fields->has_source ? " to " : " by path ");
    address(fields->destination_low, fields->extended);
}

/* Whether it is flooded, and with which stamp. */
static void told_flood(const hj_fields *fields)
{
    if (fields->routing == FLOODED)
        printf(", flooded");
    if (fields->stamp_format != HJ_STAMP_NONE)
        printf(", stamp %" PRIu64, fields->time);
}

void told_send(uint32_t node, uint32_t port, const hj_fields *fields,
               const struct datagram *datagram)
{
    sent_unseen += is_quiet;
    if (is_quiet)
        return;
    at_now();
    printf("%s sends ", nodes[node].name);
    told_data(datagram);
    told_addresses(fields);
    printf(" by port %" PRIu32 "\n%14s%s-octet addresses, transport %" PRIu32,
           port, "", fields->extended ? "four" : "one", fields->tp_id);
    if (fields->has_qos)
        printf(", precedence %" PRIu32, fields->precedence);
    if (fields->has_hop_count)
        printf(", hop count %" PRIu32, fields->hop_count);
    printf("%s%s", fields->has_checksum ? ", checksum" : "",
           fields->intermediate ? ", intermediate delivery" : "");
    told_flood(fields);
    printf("\n%14sheader %" PRIu32 " + data %" PRIu32 " = %" PRIu32 " octets\n",
           "", datagram->header, datagram->length - datagram->header,
           datagram->length);
}

/* How long octets are on the wire, rounded to a tenth of a millisecond. */
static void milliseconds(uint32_t octets, const struct wire *wire)
{
    uint64_t tenths =
        (wire_microseconds(octets, wire->bits_per_second) + 50) / 100;

    printf("%" PRIu64 ".%" PRIu64 " ms", tenths / 10, tenths % 10);
}

/* The link, and the data of what is on it. */
static void what_goes(uint32_t node, uint32_t port)
{
    const struct wire *wire = &nodes[node].wires[port];

    at_now();
    printf("%s port %" PRIu32 " to %s port %" PRIu32 ": ", nodes[node].name,
           port, nodes[wire->peer].name, wire->peer_port);
    told_data(&wire->flying);
}

void told_start(uint32_t node, uint32_t port, bool own, hj_answer entry)
{
    const struct wire *wire = &nodes[node].wires[port];
    hj_reading reading = hj_read(wire->flying.octets, wire->flying.length);

    if (is_quiet)
        return;
    what_goes(node, port);
    told_addresses(&reading.fields);
    printf("\n%14s%" PRIu32 " octets at %" PRIu32 " bit/s: ", "",
           wire->flying.length, wire->bits_per_second);
    milliseconds(wire->flying.length, wire);
    printf(" on the wire");
    if (reading.fields.has_hop_count)
        printf("; hop count %" PRIu32, reading.fields.hop_count);
    if (!own)
        printf("; slot %u, precedence %u, %" PRIu32 " still wait",
               (unsigned)hj_slot(entry), (unsigned)hj_precedence(entry),
               node_waiting(&nodes[node], port));
    puts("");
}

void told_wire(uint32_t node, uint32_t port, const char *what)
{
    if (!is_quiet)
        printf("   (%s port %" PRIu32 " %s)\n", nodes[node].name, port, what);
}

void told_lost(uint32_t node, uint32_t port)
{
    lost_unseen += is_quiet;
    if (is_quiet)
        return;
    what_goes(node, port);
    puts(" is LOST, the link is cut");
}

void told_refused_take(uint32_t node, uint32_t port, uint32_t number)
{
    at_now();
    printf("%s port %" PRIu32 ": a take is REFUSED (%" PRIu32 "), %s\n",
           nodes[node].name, port, number, number_name(number));
}

void told_sweep(uint32_t node, uint32_t mission, uint32_t second,
                uint32_t refusal, uint32_t before)
{
    at_now();
    printf("%s sweeps at second %" PRIu32, nodes[node].name, second);
    if (mission != 0)
        printf(", mission %" PRIu32, mission);
    if (refusal != HJ_DONE)
        printf(": REFUSED (%" PRIu32 "), %s", refusal, number_name(refusal));
    printf("; pairs held: %" PRIu32 " before, %" PRIu32 " after\n", before,
           node_pairs(&nodes[node], mission));
}

/* ---- What a relay answered --------------------------------------------- */

static void local_half(uint32_t local)
{
    if (local == HJ_LOCAL_NO)
        puts("here: not delivered (0)");
    else if (local == HJ_DELIVERED)
        puts("here: DELIVERED (1)");
    else
        printf("here: REFUSED (%" PRIu32 "), %s\n", local, number_name(local));
}

static void onward_half(hj_verdict verdict)
{
    uint32_t onward = hj_onward(verdict);

    printf("%14sonward: ", "");
    if (onward == HJ_NOT_ASKED)
        printf("not asked (0)");
    else if (onward == HJ_SENT_ON)
        printf("sent on (1)");
    else
        printf("REFUSED (%" PRIu32 "), %s", onward, number_name(onward));
}

void told_ports(hj_verdict verdict)
{
    if (hj_took(verdict) != 0) {
        printf("; taken by port ");
        told_set(hj_took(verdict));
    } else {
        printf("; no port took it");
    }
    if (hj_dropped(verdict) != 0) {
        printf("; DROPPED, queue full, by port ");
        told_set(hj_dropped(verdict));
    }
    puts("");
}

/* What a header costs that is longer than the one that came. */
static void cost_of(uint32_t octets, const struct wire *wire)
{
    printf(", %" PRIu32 " more than came", octets);
    if (!wire->linked)
        return;
    printf(": ");
    milliseconds(octets, wire);
    printf(" more at %" PRIu32 " bit/s", wire->bits_per_second);
}

static void header_of(const struct wire *wire, uint32_t port,
                      hj_verdict verdict)
{
    bool rewritten = hj_rewritten(verdict) >> port & 1;
    uint32_t octets = hj_header_octets(verdict, port);
    uint32_t came = hj_data_from(verdict);

    printf("%14sport %" PRIu32 ": header %s, %" PRIu32 " octets", "", port,
           rewritten ? "rewritten" : "kept", octets);
    if (octets > came)
        cost_of(octets - came, wire);
    puts("");
}

static void headers_of(const struct node *node, hj_verdict verdict)
{
    for (uint32_t port = 0; port < HJ_PORTS; port++) {
        if (hj_took(verdict) >> port & 1)
            header_of(&node->wires[port], port, verdict);
    }
}

void told_counters(const struct node *node, uint32_t mission,
                   const uint32_t *before)
{
    const char *between = "";

    printf("%14scounters:", "");
    for (uint32_t counter = 0; counter < HJ_COUNTERS; counter++) {
        uint32_t after = node_counter(node, mission, counter);

        if (after != before[counter]) {
            printf("%s %s %" PRIu32 " (+%" PRIu32 ")", between,
                   COUNTER_NAMES[counter], after, after - before[counter]);
            between = ",";
        }
    }
    puts(*between ? "" : " none moved");
}

void told_arrival(uint32_t node, uint32_t port, const struct kept *kept,
                  const uint32_t *before)
{
    hj_verdict verdict = kept->verdict;

    arrived_unseen += is_quiet;
    dropped_unseen += is_quiet && hj_dropped(verdict) != 0;
    if (is_quiet)
        return;
    at_now();
    printf("%s receives ", nodes[node].name);
    told_data(&kept->came);
    printf(" by port %" PRIu32 "\n%14s", port, "");
    if (hj_ended_by(verdict) != HJ_DONE) {
        printf("REFUSED (%" PRIu32 "), %s", hj_ended_by(verdict),
               number_name(hj_ended_by(verdict)));
    } else {
        local_half(hj_local(verdict));
        onward_half(verdict);
    }
    told_ports(verdict);
    headers_of(&nodes[node], verdict);
    if (before != NULL)
        told_counters(&nodes[node], node_mission(&nodes[node], port), before);
}
