/*
 * Cases of page 02, W-203, that a trace does not show or would show too
 * slowly: the port that dropped a reply, replies built by themselves, every
 * form of a request's header, every length at the edge of an MTU. The cases
 * one by one stand in tests/traces/relay-echo.trace and messages.trace.
 *
 * The awkward case is what does not happen: `answer` looks after every call
 * whether an octet behind the reply changed, whether the second or a counter
 * of received datagrams moved, and whether the answer agrees with itself.
 */
#include <string.h>

#include "plain_bed.h"
#include "plain_header.h"
#include "plain_message.h"

enum {
    HERE = 0x0a0a0a02,  /* port 0, by which the requests come */
    NEAR = 0x0a0a0a06,  /* port 1, in the same domain */
    FAR = 0x0a0a0b02,   /* port 2, in another */
    ASKER = 0x0a0a0a04, /* who asks */
    ECHO_ROOM = 8191,
    FORMS = 256
};

static uint8_t reply[ECHO_ROOM + 8];
static uint8_t data[256];

static void route_all(uint32_t port, uint32_t capabilities)
{
    plain_record record = {1, {0}, {0}, port, PLAIN_UP, capabilities, 0};
    CHECK_EQUAL(plain_set_route(&relay.board, list, 0, &record), 0);
}

static void fresh_with_ports(uint32_t mtu)
{
    fresh();
    CHECK_EQUAL(set_port(0, HERE, net24, mtu), 0);
    CHECK_EQUAL(set_port(1, NEAR, net24, 8191), 0);
    CHECK_EQUAL(set_port(2, FAR, net24, 8191), 0);
}

/* Whether the answer agrees with itself. */
static void check_echoed(const plain_echoed *echoed)
{
    bool sent = echoed->onward == PLAIN_REPLY_SENT;
    bool full = echoed->onward == PLAIN_ALL_FULL;
    uint32_t length = (reply[0] & 0x1fu) << 8 | reply[1];

    CHECK_EQUAL(echoed->took.bits != 0, sent);
    CHECK_EQUAL(echoed->dropped.bits != 0, full);
    CHECK_EQUAL(echoed->reply_octets, sent ? length : 0);
    for (size_t at = echoed->reply_octets; at < sizeof reply; at++)
        CHECK_EQUAL(reply[at], lent_at((uint32_t)at));
}

/* What the counters are after an answer: those of received datagrams stay. */
static plain_counters due_counters(plain_counters before, uint32_t onward)
{
    before.counts[PLAIN_OUT_REQUESTS] += onward != PLAIN_REPLY_NONE;
    before.counts[PLAIN_OUT_NO_ROUTES] += onward == PLAIN_NO_ROUTE;
    before.counts[PLAIN_TOO_BIG_COUNT] += onward == PLAIN_TOO_BIG;
    before.counts[PLAIN_OUT_DISCARDS] += onward == PLAIN_ALL_FULL;
    return before;
}

static plain_echoed answer(uint32_t arrival, size_t count, size_t room)
{
    uint32_t last = relay.mission.last_second;
    plain_counters due = relay.mission.counters;
    plain_slot slot = {7};
    plain_echoed echoed;

    for (uint32_t at = 0; at < sizeof reply; at++)
        reply[at] = lent_at(at);
    echoed = plain_echo(&view, arrival, slot, octets, count, reply, room);
    check_echoed(&echoed);
    due = due_counters(due, echoed.onward);
    CHECK_EQUAL(memcmp(&relay.mission.counters, &due, sizeof due), 0);
    CHECK_EQUAL(relay.mission.last_second, last);
    return echoed;
}

static plain_fields asking(uint32_t destination)
{
    plain_fields fields;

    memset(&fields, 0, sizeof fields);
    fields.tp_id = 1;
    fields.extended = 1;
    fields.source_present = 1;
    fields.destination.low = destination;
    fields.source.low = ASKER;
    fields.hop_present = 1;
    fields.hop = 5;
    return fields;
}

/* Sets down a request with so much data; answers its length. */
static size_t request(const plain_fields *fields, size_t data_octets)
{
    plain_message message = {PLAIN_ECHO_REQUEST, 0x0102, 0x0304, 0, 0, 0, 0,
                             0, data, data_octets};
    uint32_t header = 0;
    size_t written = 0;

    CHECK_EQUAL(plain_header_build(fields, (uint32_t)(8 + data_octets), octets,
                                   PLAIN_HEADER_MOST, &header), 0);
    CHECK_EQUAL(plain_request_build(&message, octets + header,
                                    sizeof octets - header, &written), 0);
    CHECK_EQUAL(written, 8 + data_octets);
    return header + written;
}

static plain_echoed ask(const plain_fields *fields, size_t data_octets)
{
    return answer(0, request(fields, data_octets), ECHO_ROOM);
}

static void test_fresh(void)
{
    plain_fields fields = asking(HERE);

    CHECK_EQUAL(PLAIN_OUT_REQUESTS, 17);
    CHECK_EQUAL(PLAIN_COUNTERS, 18);
    fresh_with_ports(8191);
    route_all(1, PLAIN_ASKS_NOTHING);
    CHECK_EQUAL(relay.board.echo_drop, 0);
    CHECK_EQUAL(plain_set_echo_drop(&relay.board, 1), 0);
    CHECK_EQUAL(ask(&fields, 2).onward, PLAIN_REPLY_NONE);
    CHECK_EQUAL(plain_set_echo_drop(&relay.board, 2), PLAIN_SET_CODE);
    CHECK_EQUAL(relay.board.echo_drop, 1);
    CHECK_EQUAL(plain_set_echo_drop(&relay.board, 0), 0);
    CHECK_EQUAL(ask(&fields, 2).onward, PLAIN_REPLY_SENT);
}

/* A path and a group that are delivered, and still no answer. */
static void test_delivered_and_not_answered(void)
{
    plain_fields fields = asking(0x0a0a0a21);

    fresh_with_ports(8191);
    route_all(1, PLAIN_ASKS_NOTHING);
    CHECK_EQUAL(set_group(0, 0x0a0a0a21, 2, 1), 0);
    CHECK_EQUAL(set_path(0, 0x0a0a0a21, 2, 1), 0);
    CHECK_VERDICT(receive(0, 1, request(&fields, 2)), 0, 1, 0, 0);
    CHECK_EQUAL(ask(&fields, 2).onward, PLAIN_REPLY_NONE);
    fields.source_present = 0;
    fields.source.low = 0;
    CHECK_VERDICT(receive(0, 1, request(&fields, 2)), 0, 1, 0, 0);
    CHECK_EQUAL(ask(&fields, 2).onward, PLAIN_REPLY_NONE);
    CHECK_EQUAL(relay.mission.queues[1].waiting, 0);
}

/* Every bit of the message: whichever is turned, the checksum tells. */
static void test_every_bit(void)
{
    plain_fields fields = asking(HERE);
    size_t count;

    fresh_with_ports(8191);
    route_all(1, PLAIN_ASKS_NOTHING);
    count = request(&fields, 5);
    for (size_t bit = 8 * (count - 13); bit < 8 * count; bit++) {
        octets[bit / 8] ^= (uint8_t)(1u << bit % 8);
        CHECK_EQUAL(answer(0, count, ECHO_ROOM).onward, PLAIN_REPLY_NONE);
        octets[bit / 8] ^= (uint8_t)(1u << bit % 8);
    }
    CHECK_EQUAL(answer(0, count, ECHO_ROOM).onward, PLAIN_REPLY_SENT);
}

/* The 33rd is dropped, counted once as such and once as a reply. */
static void test_dropped(void)
{
    plain_fields fields = asking(HERE);
    plain_echoed echoed;

    fresh_with_ports(100);
    route_all(2, PLAIN_ASKS_NOTHING);
    for (uint32_t at = 0; at < PLAIN_QUEUE_ENTRIES; at++)
        CHECK_EQUAL(ask(&fields, 2).took.bits, 4);
    echoed = ask(&fields, 2);
    CHECK_EQUAL(echoed.onward, PLAIN_ALL_FULL);
    CHECK_EQUAL(echoed.dropped.bits, 4);
    CHECK_COUNT(PLAIN_OUT_DISCARDS, 1);
    CHECK_COUNT(PLAIN_OUT_REQUESTS, 33);
    CHECK_COUNT(PLAIN_FORW_DATAGRAMS, 0);
}

/* The form of a request by its number, a bit for each element. */
static plain_fields form(uint32_t number)
{
    plain_fields fields = asking(number & 1 ? HERE : 0x0a0a0a30);

    fields.intermediate = number & 1 ? number >> 1 & 1 : 1;
    fields.extended = number >> 2 & 1;
    if (!fields.extended) {
        fields.destination.low &= 0xff;
        fields.source.low &= 0xff;
    }
    fields.basic_qos_present = number >> 3 & 1;
    fields.precedence = fields.basic_qos_present ? 11 : 0;
    fields.program = fields.basic_qos_present ? 3 : 0;
    fields.stamp_format = number >> 4 & 3;
    fields.p_field = fields.stamp_format == PLAIN_STAMP_EXPLICIT ? 0x8e : 0;
    fields.time = fields.stamp_format != PLAIN_STAMP_NONE ? 0x010203 : 0;
    fields.expanded_present = number >> 6 & 1;
    fields.expanded = fields.expanded_present ? 9 : 0;
    fields.checksum_present = number >> 7 & 1;
    return fields;
}

/* The header that is due, as the builder makes it. All its numbers are here:
 * none is taken from what was answered. */
static plain_fields due_header(const plain_fields *asked, bool far,
                               bool checksum)
{
    plain_fields due = asking(ASKER);

    due.extended = asked->extended || far;
    due.source.low = HERE;
    if (!due.extended) {
        due.destination.low &= 0xff;
        due.source.low &= 0xff;
    }
    due.basic_qos_present = asked->basic_qos_present;
    due.precedence = asked->precedence;
    due.hop = 64;
    due.checksum_present = checksum;
    return due;
}

static void check_message(const uint8_t *message, size_t count,
                          const plain_fields *asked)
{
    static const uint64_t stamps[] = {0, 0x010203, 0x8e000000010203,
                                      0x00010203};
    plain_message got;

    CHECK_EQUAL(plain_message_read(message, count, &got), 0);
    CHECK_EQUAL(got.type, PLAIN_ECHO_REPLY);
    CHECK_EQUAL(got.identifier, 0x0102);
    CHECK_EQUAL(got.sequence, 0x0304);
    CHECK_EQUAL(got.hops, 5);
    CHECK_EQUAL(got.format, asked->stamp_format);
    CHECK_EQUAL(got.timestamp, stamps[asked->stamp_format]);
    CHECK_EQUAL(got.mtu, 8191);
    CHECK_EQUAL(got.rate, 0);
    CHECK_EQUAL(got.data_octets, 5);
    CHECK_EQUAL(memcmp(got.data, data, 5), 0);
}

static void check_form(const plain_fields *asked, uint32_t port, bool checksum)
{
    plain_fields due = due_header(asked, port == 2, checksum);
    uint8_t header[PLAIN_HEADER_MOST];
    uint32_t count = 0;
    plain_entry entry = {{0}, 0};
    plain_echoed echoed = ask(asked, 5);

    CHECK_EQUAL(plain_header_build(&due, 31, header, sizeof header, &count),
                0);
    CHECK_EQUAL(echoed.onward, PLAIN_REPLY_SENT);
    CHECK_EQUAL(echoed.took.bits, 1u << port);
    CHECK_EQUAL(echoed.reply_octets, count + 31);
    CHECK_EQUAL(memcmp(reply, header, count), 0);
    check_message(reply + count, 31, asked);
    CHECK_EQUAL(plain_take(&view, port, &entry), 0);
    CHECK_EQUAL(entry.slot.number, 7);
    CHECK_EQUAL(entry.precedence, asked->precedence);
}

static void check_forms(uint32_t port, uint32_t code, bool checksum)
{
    route_all(port, code);
    for (uint32_t number = 0; number < FORMS; number++) {
        plain_fields asked = form(number);

        check_form(&asked, port, checksum);
    }
}

static void test_every_form(void)
{
    fresh_with_ports(8191);
    for (uint32_t port = 1; port <= 2; port++) {
        check_forms(port, PLAIN_ASKS_NOTHING, false);
        check_forms(port, PLAIN_ASKS_CHECKSUM, true);
        check_forms(port, PLAIN_ASKS_HOP_COUNT, false);
        check_forms(port, PLAIN_ASKS_BOTH, true);
    }
}

/* 39 octets come before the data. */
static void check_cut(uint32_t mtu, size_t asked)
{
    plain_fields fields = asking(HERE);
    plain_echoed echoed = ask(&fields, asked);
    plain_entry entry;
    size_t left = mtu < 39 ? 0 : mtu - 39;

    CHECK_EQUAL(echoed.onward, mtu < 39 ? PLAIN_REPLY_NONE : PLAIN_REPLY_SENT);
    if (echoed.onward == PLAIN_REPLY_NONE)
        return;
    CHECK_EQUAL(echoed.reply_octets, 39 + (asked < left ? asked : left));
    CHECK_EQUAL(memcmp(reply + 39, data, echoed.reply_octets - 39), 0);
    CHECK_EQUAL(plain_take(&view, 1, &entry), 0);
}

static void check_cuts(uint32_t mtu)
{
    fresh_with_ports(mtu);
    route_all(1, PLAIN_ASKS_NOTHING);
    for (size_t asked = 0; asked <= 24; asked++)
        check_cut(mtu, asked);
}

static void test_cut(void)
{
    for (uint32_t mtu = 36; mtu <= 60; mtu++)
        check_cuts(mtu);
}

/* Widened and with a checksum the 33 octets become 41. */
static void test_room(void)
{
    plain_fields fields = asking(HERE & 0xff);

    fields.extended = 0;
    fields.source.low = ASKER & 0xff;
    fresh_with_ports(33);
    route_all(2, PLAIN_ASKS_CHECKSUM);
    for (size_t room = 0; room <= 44; room++) {
        plain_echoed echoed = answer(0, request(&fields, 3), room);

        CHECK_EQUAL(echoed.refusal, room < 33 ? PLAIN_NO_ROOM : PLAIN_GOOD);
        if (room >= 33)
            CHECK_EQUAL(echoed.onward, room < 41 ? (uint32_t)PLAIN_TOO_BIG
                                                 : PLAIN_REPLY_SENT);
    }
    CHECK_COUNT(PLAIN_TOO_BIG_COUNT, 8);
    CHECK_COUNT(PLAIN_OUT_REQUESTS, 12);
}

/* 17 before 20, and nothing written; every number of its width is taken. */
static void test_reply_built(void)
{
    static uint8_t much[PLAIN_DATA_MOST];
    plain_message message = {PLAIN_ECHO_REPLY, 0xffff, 0, 255, 255,
                             0xff01020304050607, 0xffffffff, 0xfffffffe,
                             much, PLAIN_DATA_MOST - 26};
    plain_message got;
    size_t written = 0;

    reply[0] = 0xa5;
    CHECK_EQUAL(plain_reply_build(&message, reply, 8140, &written),
                PLAIN_NO_ROOM);
    message.data_octets++;
    CHECK_EQUAL(plain_reply_build(&message, reply, 8141, &written),
                PLAIN_NO_ROOM);
    CHECK_EQUAL(plain_reply_build(&message, reply, 8142, &written),
                PLAIN_TOO_MUCH_DATA);
    CHECK_EQUAL(written, 0);
    CHECK_EQUAL(reply[0], 0xa5);
    message.data_octets--;
    CHECK_EQUAL(plain_reply_build(&message, reply, 8141, &written), 0);
    CHECK_EQUAL(written, 8141);
    CHECK_EQUAL(plain_message_read(reply, written, &got), 0);
    CHECK_EQUAL(got.identifier, 0xffff);
    CHECK_EQUAL(got.sequence, 0);
    CHECK_EQUAL(got.hops, 255);
    CHECK_EQUAL(got.format, 255);
    CHECK_EQUAL(got.timestamp, 0xff01020304050607);
    CHECK_EQUAL(got.mtu, 0xffffffff);
    CHECK_EQUAL(got.rate, 0xfffffffe);
    CHECK_EQUAL(got.data_octets, PLAIN_DATA_MOST - 26);
}

int main(void)
{
    for (size_t at = 0; at < sizeof data; at++)
        data[at] = (uint8_t)(at * 7 + 1);
    test_fresh();
    test_delivered_and_not_answered();
    test_every_bit();
    test_dropped();
    test_every_form();
    test_cut();
    test_room();
    test_reply_built();
    return checks_report("test_echo");
}
