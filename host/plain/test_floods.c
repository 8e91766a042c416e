/*
 * Cases of page 02, W-207, worked out by hand: flooded datagrams, the seconds
 * at which calls come, the pairs by which a flooded datagram is known when it
 * comes again, and the sweeps that free them.
 *
 * Most datagrams come by port 0 from 10.10.10.4 and go to 10.4.8.2, to which
 * no route leads. Ports 1 and 2 are the mission's others, and ports 3 and 4
 * are of mission 1 on the same board.
 *
 * The awkward case is a pair that is kept where it should not be, or lost: the
 * answer does not show it. So the pairs held are counted wherever one might
 * be.
 */
#include <string.h>

#include "plain_bed.h"
#include "plain_header.h"

enum {
    HERE = 0x0a0a0a02,   /* port 0, by which most datagrams come */
    NEAR = 0x0a0a0a06,   /* port 1, in the same domain */
    FAR = 0x0a0a0b02,    /* port 2, in another */
    SENDER = 0x0a0a0a04,
    AWAY = 0x0a040802,
    TIME = 0x010203,
    OTHERS = 6 /* ports 1 and 2 as a set */
};

static const uint32_t THEIRS = 0xc0000201; /* port 3, mission 1 */

static plain_mission other; /* mission 1 */

static const plain_view their_view = {
    &relay.board, &other, {relay.records, PLAIN_ROUTES}};

/* A list so long is refused before it is looked at. */
static const plain_view long_list_view = {
    &relay.board, &relay.mission, {relay.records, PLAIN_ROUTES + 1}};

static void fresh_router(void)
{
    fresh();
    CHECK_EQUAL(plain_mission_fresh(&other, 1), 0);
    CHECK_EQUAL(plain_set_router(&relay.board, 1), 0);
    CHECK_EQUAL(set_port(0, HERE, net24, 8191), 0);
}

static void fresh_with_ports(void)
{
    plain_port theirs = {{THEIRS}, {net24}, 8191, 1};

    fresh_router();
    CHECK_EQUAL(set_port(1, NEAR, net24, 8191), 0);
    CHECK_EQUAL(set_port(2, FAR, net24, 8191), 0);
    CHECK_EQUAL(plain_set_port(&relay.board, 3, &theirs), 0);
    CHECK_EQUAL(plain_set_port(&relay.board, 4, &theirs), 0);
}

/* Four-octet addresses, a header of 16 octets. */
static plain_fields flood(uint32_t destination)
{
    plain_fields fields = {.tp_id = 6, .source_present = 1, .extended = 1,
                           .source = {0, SENDER}, .basic_qos_present = 1,
                           .routing = PLAIN_ROUTING_FLOOD,
                           .stamp_format = PLAIN_STAMP_IMPLICIT,
                           .time = TIME};

    fields.destination.low = destination;
    return fields;
}

static plain_fields stamped(uint32_t format, uint32_t p_field, uint64_t time)
{
    plain_fields fields = flood(AWAY);

    fields.stamp_format = format;
    fields.p_field = p_field;
    fields.time = time;
    return fields;
}

static plain_fields at_time(uint64_t time)
{
    return stamped(PLAIN_STAMP_IMPLICIT, 0, time);
}

/* One-octet addresses, from 4. */
static plain_fields narrow(uint32_t destination)
{
    plain_fields fields = flood(destination);

    fields.extended = 0;
    fields.source.low = 0x04;
    return fields;
}

static plain_fields with_hops(plain_fields fields, uint32_t hops)
{
    fields.hop_present = 1;
    fields.hop = hops;
    return fields;
}

static plain_fields passing(plain_fields fields)
{
    fields.intermediate = 1;
    return fields;
}

static plain_fields without_stamp(plain_fields fields)
{
    fields.stamp_format = PLAIN_STAMP_NONE;
    fields.time = 0;
    return fields;
}

static plain_fields without_source(plain_fields fields)
{
    fields.source_present = 0;
    fields.source.low = 0;
    return fields;
}

static plain_verdict arrive_with_data(uint32_t arrival, plain_fields fields,
                                      uint32_t data)
{
    uint32_t built = 0;

    CHECK_EQUAL(plain_header_build(&fields, data, octets, sizeof octets,
                                   &built), 0);
    return receive(arrival, 1, built + data);
}

static plain_verdict arrive(uint32_t arrival, plain_fields fields)
{
    return arrive_with_data(arrival, fields, 0);
}

static plain_verdict arrive_theirs(uint32_t arrival, uint32_t second,
                                   plain_fields fields)
{
    plain_slot slot = {1};
    uint32_t built = 0;

    CHECK_EQUAL(plain_header_build(&fields, 0, octets, sizeof octets, &built),
                0);
    return plain_receive(&their_view, arrival, slot, second, octets, built,
                         output, PLAIN_OUTPUT_ROOM);
}

static uint32_t held_by(const plain_mission *mission)
{
    uint32_t held = 0;

    for (size_t at = 0; at < PLAIN_PAIRS; at++)
        held += mission->pairs[at].format != 0;
    return held;
}

static uint32_t held(void)
{
    return held_by(&relay.mission);
}

static bool place_is_zeros(size_t place)
{
    static const uint8_t zeros[sizeof(plain_pair)];

    return memcmp(&relay.mission.pairs[place], zeros, sizeof zeros) == 0;
}

#define CHECK_PAIR(place, format_due, source_due, p_field_due, time_due, \
                   second_due) \
    do { \
        const plain_pair *got = &relay.mission.pairs[place]; \
        CHECK_EQUAL(got->format, format_due); \
        CHECK_EQUAL(got->source.bits, source_due); \
        CHECK_EQUAL(got->p_field, p_field_due); \
        CHECK_EQUAL(got->time, time_due); \
        CHECK_EQUAL(got->second, second_due); \
    } while (0)

/* All that was counted. */
static uint32_t counted(void)
{
    uint32_t sum = 0;

    for (size_t at = 0; at < PLAIN_COUNTERS; at++)
        sum += relay.mission.counters.counts[at];
    return sum;
}

static uint8_t remembered[sizeof relay];

static void remember(void)
{
    memcpy(remembered, &relay, sizeof relay);
}

static bool unchanged(void)
{
    return memcmp(remembered, &relay, sizeof relay) == 0;
}

static void empty_queues(void)
{
    plain_entry entry;

    for (uint32_t port = 0; port < 3; port++)
        while (plain_take(&view, port, &entry) == PLAIN_GOOD)
            continue;
}

/* Pairs of the times from 0 on, each at the second that is its time. */
static void hold_pairs(uint32_t count)
{
    for (now = 0; now < count; now++) {
        CHECK_VERDICT(arrive(0, at_time(now)), 0, 0, 1, OTHERS);
        CHECK_EQUAL(held(), now + 1);
        empty_queues();
    }
    now = count - 1;
}

static void test_fresh(void)
{
    fresh_with_ports();
    CHECK_EQUAL(plain_set_lifetime(&relay.board, 9), 0);
    now = 7;
    arrive(0, flood(AWAY));
    CHECK_EQUAL(held(), 1);
    CHECK_EQUAL(relay.board.lifetime, 9);
    CHECK_EQUAL(relay.mission.last_second, 7);
    fresh();
    CHECK_EQUAL(relay.board.lifetime, 0);
    CHECK_EQUAL(relay.mission.last_second, 0);
    for (size_t place = 0; place < PLAIN_PAIRS; place++)
        CHECK_EQUAL(place_is_zeros(place), true);
}

/* To every other port of the mission, without any route. */
static void test_flooded(void)
{
    plain_entry entry;
    plain_fields urgent = at_time(9);

    fresh_with_ports();
    now = 6;
    CHECK_VERDICT(arrive(0, flood(AWAY)), 0, 0, 1, OTHERS);
    CHECK_EQUAL(held(), 1);
    CHECK_PAIR(0, 1, SENDER, 0, TIME, 6);
    CHECK_VERDICT(arrive(2, at_time(8)), 0, 0, 1, 3);
    CHECK_PAIR(1, 1, SENDER, 0, 8, 6);
    CHECK_COUNT(PLAIN_IN_RECEIVES, 2);
    CHECK_COUNT(PLAIN_FORW_DATAGRAMS, 2);
    CHECK_EQUAL(counted(), 4);
    urgent.precedence = 13;
    CHECK_VERDICT(arrive(0, urgent), 0, 0, 1, OTHERS);
    CHECK_EQUAL(plain_take(&view, 2, &entry), 0);
    CHECK_EQUAL(entry.precedence, 13);
}

/* The octets between the numbers of a place are zeros too, so that missions
 * can be compared octet by octet. */
static void test_octets_of_a_place(void)
{
    plain_pair due;

    fresh_with_ports();
    now = 6;
    arrive(0, stamped(PLAIN_STAMP_EXPLICIT, 0x08, TIME));
    memset(&due, 0, sizeof due);
    due.format = PLAIN_STAMP_EXPLICIT;
    due.source.bits = SENDER;
    due.p_field = 0x08;
    due.time = TIME;
    due.second = 6;
    CHECK_EQUAL(memcmp(&relay.mission.pairs[0], &due, sizeof due), 0);
}

static void test_routing_values(void)
{
    plain_fields reserved = flood(AWAY);
    plain_fields ipv6 = flood(AWAY);

    fresh_with_ports();
    for (uint32_t routing = 1; routing <= 2; routing++) {
        reserved.routing = routing;
        CHECK_VERDICT(arrive(0, reserved), PLAIN_NOT_CARRIED, 0, 0, 0);
        CHECK_VERDICT(arrive(0, without_stamp(reserved)), PLAIN_NOT_CARRIED,
                      0, 0, 0);
    }
    ipv6.extended = 0;
    ipv6.ipv6 = 1;
    CHECK_VERDICT(arrive(0, ipv6), PLAIN_NOT_CARRIED, 0, 0, 0);
    CHECK_VERDICT(arrive(0, without_stamp(ipv6)), PLAIN_NOT_CARRIED, 0, 0, 0);
    CHECK_COUNT(PLAIN_UNSUPPORTED, 6);
    CHECK_EQUAL(held(), 0);
    CHECK_VERDICT(arrive(0, flood(AWAY)), 0, 0, 1, OTHERS);
    CHECK_VERDICT(arrive(2, narrow(0x0e)), 0, 0, 1, 3);
    CHECK_EQUAL(held(), 2);
    /* What is not flooded needs no timestamp, and one makes no pair. */
    reserved.routing = 0;
    CHECK_VERDICT(arrive(0, reserved), 0, 0, PLAIN_NO_ROUTE, 0);
    CHECK_EQUAL(held(), 2);
}

/* 28 by what is lacking, on a router and on a host. */
static void test_unmarked(void)
{
    plain_fields path = without_source(flood(0x0a0a0a10));

    fresh_with_ports();
    CHECK_EQUAL(set_path(0, 0x0a0a0a10, 2, 1), 0);
    for (uint32_t router = 0; router <= 1; router++) {
        CHECK_EQUAL(plain_set_router(&relay.board, router), 0);
        CHECK_VERDICT(arrive(0, path), PLAIN_FLOOD_UNMARKED, 0, 0, 0);
        CHECK_VERDICT(arrive(0, without_stamp(flood(AWAY))),
                      PLAIN_FLOOD_UNMARKED, 0, 0, 0);
        CHECK_VERDICT(arrive(0, without_stamp(path)), PLAIN_FLOOD_UNMARKED,
                      0, 0, 0);
        CHECK_VERDICT(arrive(0, without_stamp(narrow(0x0e))),
                      PLAIN_FLOOD_UNMARKED, 0, 0, 0);
    }
    CHECK_COUNT(PLAIN_IN_RECEIVES, 8);
    CHECK_COUNT(PLAIN_FLOOD_UNMARKED_COUNT, 8);
    CHECK_EQUAL(counted(), 16);
    CHECK_EQUAL(held(), 0);
    CHECK_EQUAL(PLAIN_FLOOD_UNMARKED_COUNT, 15);
    CHECK_EQUAL(PLAIN_PAIRS_HELD_COUNT, 16);
}

static void test_28_after_6_and_7(void)
{
    plain_fields fields = without_stamp(flood(AWAY));

    fresh_with_ports();
    CHECK_EQUAL(set_port(5, 0xc0000401, net24, 8191), 0);
    fields.source.low = 0x0a0a0a05; /* multicast */
    CHECK_VERDICT(arrive(0, fields), PLAIN_BAD_ADDRESS, 0, 0, 0);
    CHECK_VERDICT(arrive(0, without_stamp(flood(0x0a0409fe))),
                  PLAIN_BAD_ADDRESS, 0, 0, 0);
    CHECK_VERDICT(arrive(0, without_source(flood(0x0a0409fe))),
                  PLAIN_BAD_ADDRESS, 0, 0, 0);
    CHECK_VERDICT(arrive(5, without_stamp(narrow(0x0e))), PLAIN_NO_DOMAIN, 0,
                  0, 0);
    /* The same with nothing wrong but the timestamp. */
    fields.source.low = SENDER;
    CHECK_VERDICT(arrive(0, fields), PLAIN_FLOOD_UNMARKED, 0, 0, 0);
    CHECK_VERDICT(arrive(0, without_source(flood(0x0a0409fc))),
                  PLAIN_FLOOD_UNMARKED, 0, 0, 0);
    CHECK_COUNT(PLAIN_IN_BAD_ADDRESS, 4);
    CHECK_COUNT(PLAIN_FLOOD_UNMARKED_COUNT, 2);
}

/* 28 ends the call: nothing is delivered and nothing is asked onward. */
static void test_28_before_both_halves(void)
{
    plain_fields unknown = without_stamp(flood(HERE));

    fresh_with_ports();
    hold_pairs(PLAIN_PAIRS);
    unknown.tp_id = 0;
    CHECK_VERDICT(arrive(0, unknown), PLAIN_FLOOD_UNMARKED, 0, 0, 0);
    CHECK_VERDICT(arrive(0, without_stamp(flood(HERE))),
                  PLAIN_FLOOD_UNMARKED, 0, 0, 0);
    CHECK_VERDICT(arrive(0, without_stamp(flood(0xffffffff))),
                  PLAIN_FLOOD_UNMARKED, 0, 0, 0);
    CHECK_VERDICT(arrive(0, without_stamp(passing(flood(AWAY)))),
                  PLAIN_FLOOD_UNMARKED, 0, 0, 0);
    CHECK_VERDICT(arrive(0, without_stamp(with_hops(flood(AWAY), 1))),
                  PLAIN_FLOOD_UNMARKED, 0, 0, 0);
    CHECK_COUNT(PLAIN_FLOOD_UNMARKED_COUNT, 5);
    CHECK_COUNT(PLAIN_IN_DELIVERS, 0);
    CHECK_COUNT(PLAIN_IN_UNKNOWN_PROTOS, 0);
    CHECK_COUNT(PLAIN_PAIRS_HELD_COUNT, 0);
    CHECK_COUNT(PLAIN_FORW_HOP_DISCARD, 0);
}

static void test_seconds(void)
{
    plain_fields unflooded = flood(HERE);

    unflooded.routing = 0;
    fresh_with_ports();
    CHECK_VERDICT(arrive(0, at_time(1)), 0, 0, 1, OTHERS); /* second 0 */
    now = 100;
    CHECK_VERDICT(arrive(0, at_time(2)), 0, 0, 1, OTHERS);
    CHECK_VERDICT(arrive(0, at_time(3)), 0, 0, 1, OTHERS);
    remember();
    now = 99;
    CHECK_VERDICT(arrive(0, at_time(4)), PLAIN_SECOND_PAST, 0, 0, 0);
    CHECK_VERDICT(arrive(0, unflooded), PLAIN_SECOND_PAST, 0, 0, 0);
    now = 0;
    CHECK_VERDICT(arrive(0, at_time(4)), PLAIN_SECOND_PAST, 0, 0, 0);
    CHECK_EQUAL(unchanged(), true);
    now = 100;
    CHECK_VERDICT(arrive(0, at_time(4)), 0, 0, 1, OTHERS);
    CHECK_VERDICT(arrive(0, unflooded), 0, 1, 0, 0);
    CHECK_EQUAL(held(), 4);
    CHECK_COUNT(PLAIN_IN_RECEIVES, 5);
}

/* The refusal of a call with the octets of the datagram before. */
static plain_refusal refusal_of(const plain_view *seen, uint32_t arrival,
                                uint32_t second, size_t count, size_t room)
{
    plain_slot slot = {1};

    return plain_receive(seen, arrival, slot, second, octets, count, output,
                         room).refusal;
}

/* 21, 16, 17, 29, and then 1 and what follows. */
static void test_order_of_29(void)
{
    fresh_with_ports();
    now = 5;
    arrive(0, flood(AWAY)); /* 16 octets */
    remember();
    CHECK_EQUAL(refusal_of(&long_list_view, 7, 4, 16, 399), PLAIN_SET_NUMBER);
    CHECK_EQUAL(refusal_of(&view, 7, 4, 16, 399), PLAIN_NO_PORT);
    CHECK_EQUAL(refusal_of(&view, 3, 4, 16, 399), PLAIN_NO_PORT);
    CHECK_EQUAL(refusal_of(&view, 0, 4, 16, 399), PLAIN_NO_ROOM);
    CHECK_EQUAL(refusal_of(&view, 0, 4, 16, 400), PLAIN_SECOND_PAST);
    CHECK_EQUAL(refusal_of(&view, 0, 4, 0, 400), PLAIN_SECOND_PAST);
    octets[0] ^= 0x60; /* the version */
    CHECK_EQUAL(refusal_of(&view, 0, 4, 16, 400), PLAIN_SECOND_PAST);
    /* With 21, 16 and 17 no second is accepted. */
    CHECK_EQUAL(refusal_of(&long_list_view, 0, 9, 16, 400), PLAIN_SET_NUMBER);
    CHECK_EQUAL(refusal_of(&view, 7, 9, 16, 400), PLAIN_NO_PORT);
    CHECK_EQUAL(refusal_of(&view, 0, 9, 16, 399), PLAIN_NO_ROOM);
    CHECK_EQUAL(unchanged(), true);
    CHECK_EQUAL(refusal_of(&view, 0, 9, 16, 400), PLAIN_BAD_VERSION);
    CHECK_EQUAL(relay.mission.last_second, 9);
}

/* Each of these refusals accepts its second; `receive` looks for it. */
static void test_seconds_of_refused_datagrams(void)
{
    static const struct {
        uint8_t lent[6];
        size_t count;
        plain_refusal refusal;
    } cases[] = {
        {{0}, 0, PLAIN_SHORT},
        {{0x40, 0x04, 0x12, 0x14}, 4, PLAIN_BAD_VERSION},
        {{0x20, 0x05, 0x12, 0x14}, 4, PLAIN_BAD_LENGTH},
        {{0x20, 0x04, 0x16, 0x14}, 4, PLAIN_BAD_FORM},
        {{0x20, 0x06, 0x13, 0x14, 0, 0}, 6, PLAIN_BAD_CHECKSUM},
        {{0x20, 0x04, 0x12, 0xfe}, 4, PLAIN_BAD_ADDRESS},
        {{0x20, 0x06, 0x1a, 0x02, 0x14, 0x04}, 6, PLAIN_NOT_CARRIED},
        {{0x20, 0x06, 0x1a, 0x02, 0x14, 0x0c}, 6, PLAIN_FLOOD_UNMARKED},
    };

    fresh_with_ports();
    CHECK_EQUAL(set_port(5, 0xc0000401, net24, 8191), 0);
    for (size_t at = 0; at < sizeof cases / sizeof *cases; at++) {
        now += 10;
        memcpy(octets, cases[at].lent, cases[at].count);
        CHECK_VERDICT(receive(0, 1, cases[at].count), cases[at].refusal, 0, 0,
                      0);
        now--;
        CHECK_VERDICT(receive(0, 1, cases[at].count), PLAIN_SECOND_PAST, 0, 0,
                      0);
    }
    now += 10;
    CHECK_VERDICT(arrive(5, narrow(0x0e)), PLAIN_NO_DOMAIN, 0, 0, 0);
    CHECK_EQUAL(relay.mission.last_second, now);
}

/* The last second there is shuts out all others. */
static void test_last_second_of_all(void)
{
    fresh_with_ports();
    now = UINT32_MAX;
    CHECK_VERDICT(arrive(0, at_time(1)), 0, 0, 1, OTHERS);
    CHECK_VERDICT(arrive(0, at_time(2)), 0, 0, 1, OTHERS);
    now = UINT32_MAX - 1;
    CHECK_VERDICT(arrive(0, at_time(3)), PLAIN_SECOND_PAST, 0, 0, 0);
    now = 0;
    CHECK_VERDICT(arrive(0, at_time(3)), PLAIN_SECOND_PAST, 0, 0, 0);
    CHECK_EQUAL(plain_sweep(&view, UINT32_MAX - 1), PLAIN_SECOND_PAST);
    CHECK_EQUAL(plain_sweep(&view, 0), PLAIN_SECOND_PAST);
    CHECK_EQUAL(plain_sweep(&view, UINT32_MAX), 0);
    CHECK_EQUAL(held(), 2);
}

/* 10.10.10.4 in four octets and in one, whichever comes first. */
static void test_both_forms_of_a_source(void)
{
    fresh_with_ports();
    CHECK_VERDICT(arrive(0, flood(AWAY)), 0, 0, 1, OTHERS);
    CHECK_VERDICT(arrive(0, narrow(0x0e)), 0, 0, 0, 0);
    CHECK_VERDICT(arrive(1, narrow(0x0e)), 0, 0, 0, 0); /* the same domain */
    CHECK_EQUAL(held(), 1);
    CHECK_VERDICT(arrive(2, narrow(0x0e)), 0, 0, 1, 3); /* 10.10.11.4 */
    CHECK_PAIR(1, 1, 0x0a0a0b04, 0, TIME, 0);

    fresh_with_ports();
    CHECK_VERDICT(arrive(0, narrow(0x0e)), 0, 0, 1, OTHERS);
    CHECK_VERDICT(arrive(2, flood(AWAY)), 0, 0, 0, 0);
    CHECK_EQUAL(held(), 1);
    CHECK_PAIR(0, 1, SENDER, 0, TIME, 0);
}

/* 1 where it is new, and 0 where it is known, and then known in any case. */
static void check_new(plain_fields fields, uint32_t due)
{
    uint32_t before = held();

    CHECK_VERDICT(arrive(0, fields), 0, 0, due, due ? OTHERS : 0);
    CHECK_EQUAL(held(), before + due);
    CHECK_VERDICT(arrive(1, fields), 0, 0, 0, 0);
    CHECK_EQUAL(held(), before + due);
}

static void test_what_makes_a_pair(void)
{
    plain_fields fields = flood(AWAY);

    fresh_with_ports();
    check_new(fields, 1);
    check_new(at_time(TIME + 1), 1);
    fields.source.low = SENDER + 2;
    check_new(fields, 1);
    fields.source.low = 0xc0000904;
    check_new(fields, 1);
    /* The same number in the other formats, of three and four octets. */
    check_new(stamped(PLAIN_STAMP_BINARY, 0, TIME), 1);
    check_new(stamped(PLAIN_STAMP_EXPLICIT, 0x08, TIME), 1);
    check_new(stamped(PLAIN_STAMP_EXPLICIT, 0x0c, TIME), 1);
    /* P-fields that give three octets as well. */
    check_new(stamped(PLAIN_STAMP_EXPLICIT, 0x05, TIME), 1);
    check_new(stamped(PLAIN_STAMP_EXPLICIT, 0x88, TIME), 1);
    check_new(stamped(PLAIN_STAMP_EXPLICIT, 0x18, TIME), 1);
    /* Times that differ in the highest octet alone. */
    check_new(stamped(PLAIN_STAMP_EXPLICIT, 0x0f, TIME), 1);
    check_new(stamped(PLAIN_STAMP_EXPLICIT, 0x0f,
                      (uint64_t)1 << 48 | TIME), 1);
    check_new(at_time(0), 1);
    CHECK_EQUAL(held(), 13);
}

static void test_what_is_no_part_of_a_pair(void)
{
    plain_fields fields = flood(AWAY);

    fresh_with_ports();
    check_new(fields, 1);
    check_new(flood(AWAY + 2), 0);
    check_new(flood(0x0a04090f), 0);
    check_new(with_hops(fields, 1), 0);
    check_new(with_hops(fields, 9), 0);
    fields.tp_id = 4;
    check_new(fields, 0);
    fields.precedence = 15;
    fields.program = 3;
    check_new(fields, 0);
    fields.expanded_present = 1;
    fields.checksum_present = 1;
    check_new(fields, 0);
    CHECK_VERDICT(arrive_with_data(0, flood(AWAY), 100), 0, 0, 0, 0);
    CHECK_EQUAL(held(), 1);
}

/* Each P-field with the highest time that it has room for. */
static void test_every_p_field(void)
{
    fresh_with_ports();
    for (uint32_t p_field = 0; p_field < 256; p_field++) {
        uint32_t count = plain_stamp_octets(PLAIN_STAMP_EXPLICIT, p_field) - 1;
        uint64_t time = ((uint64_t)1 << (8 * count)) - 1;

        now++;
        CHECK_VERDICT(arrive(0, stamped(PLAIN_STAMP_EXPLICIT, p_field, time)),
                      0, 0, 1, OTHERS);
        CHECK_PAIR(0, 2, SENDER, p_field, time, now);
        CHECK_EQUAL(plain_sweep(&view, now + 1), 0);
        CHECK_EQUAL(held(), 0);
        empty_queues();
    }
}

/* A repeat is delivered as it was before, and not sent on. */
static void test_repeats(void)
{
    plain_fields unknown = passing(at_time(5));

    fresh_with_ports();
    CHECK_EQUAL(set_group(0, 0x0a04090f, 0, 1), 0);
    CHECK_VERDICT(arrive(0, at_time(1)), 0, 0, 1, OTHERS);
    CHECK_VERDICT(arrive(0, at_time(1)), 0, 0, 0, 0);
    CHECK_VERDICT(arrive(0, passing(at_time(2))), 0, 1, 1, OTHERS);
    CHECK_VERDICT(arrive(0, passing(at_time(2))), 0, 1, 0, 0);
    CHECK_VERDICT(arrive(2, passing(at_time(2))), 0, 1, 0, 0);
    CHECK_VERDICT(arrive(0, flood(0x0a0a0aff)), 0, 1, 1, OTHERS);
    CHECK_VERDICT(arrive(0, flood(0x0a0a0aff)), 0, 1, 0, 0);
    CHECK_VERDICT(arrive(0, flood(0x0a04090f)), 0, 1, 0, 0);
    unknown.tp_id = 2;
    CHECK_VERDICT(arrive(0, unknown), 0, 26, 1, OTHERS);
    CHECK_VERDICT(arrive(0, unknown), 0, 26, 0, 0);
    CHECK_EQUAL(held(), 4);
    CHECK_COUNT(PLAIN_IN_RECEIVES, 10);
    CHECK_COUNT(PLAIN_IN_DELIVERS, 6);
    CHECK_COUNT(PLAIN_IN_UNKNOWN_PROTOS, 2);
    CHECK_COUNT(PLAIN_FORW_DATAGRAMS, 4);
    CHECK_EQUAL(counted(), 22);
}

static void test_a_repeat_makes_no_pair_younger(void)
{
    fresh_with_ports();
    CHECK_EQUAL(plain_set_lifetime(&relay.board, 10), 0);
    now = 5;
    CHECK_VERDICT(arrive(0, flood(AWAY)), 0, 0, 1, OTHERS);
    now = 15;
    CHECK_VERDICT(arrive(0, flood(AWAY)), 0, 0, 0, 0);
    CHECK_PAIR(0, 1, SENDER, 0, TIME, 5);
    CHECK_EQUAL(plain_sweep(&view, 15), 0);
    CHECK_EQUAL(held(), 1);
    CHECK_EQUAL(plain_sweep(&view, 16), 0);
    CHECK_EQUAL(held(), 0);
    now = 16;
    CHECK_VERDICT(arrive(0, flood(AWAY)), 0, 0, 1, OTHERS);
    CHECK_PAIR(0, 1, SENDER, 0, TIME, 16);
}

/* The pair stays after 10, and after 11, which comes before it. */
static void test_kept_though_10_or_11_follows(void)
{
    fresh_with_ports();
    CHECK_VERDICT(arrive(0, with_hops(at_time(0), 0)), 0, 0,
                  PLAIN_HOPS_USED_UP, 0);
    CHECK_VERDICT(arrive(0, with_hops(at_time(1), 1)), 0, 0,
                  PLAIN_HOPS_USED_UP, 0);
    CHECK_VERDICT(arrive(0, with_hops(at_time(2), 2)), 0, 0, 1, OTHERS);
    CHECK_EQUAL(held(), 3);
    CHECK_VERDICT(arrive(0, with_hops(at_time(0), 9)), 0, 0, 0, 0);
    CHECK_VERDICT(arrive(0, at_time(1)), 0, 0, 0, 0);
    CHECK_COUNT(PLAIN_FORW_HOP_DISCARD, 2);

    fresh_router(); /* without another port */
    CHECK_VERDICT(arrive(0, flood(AWAY)), 0, 0, PLAIN_NO_ROUTE, 0);
    CHECK_EQUAL(held(), 1);
    CHECK_VERDICT(arrive(0, flood(AWAY)), 0, 0, 0, 0);
    CHECK_VERDICT(arrive(0, with_hops(at_time(1), 1)), 0, 0, PLAIN_NO_ROUTE,
                  0);
    CHECK_EQUAL(held(), 2);
    CHECK_COUNT(PLAIN_OUT_NO_ROUTES, 2);
    CHECK_COUNT(PLAIN_FORW_HOP_DISCARD, 0);
}

/* The pair stays after 14 and 15. A flooded datagram has a source, so it is no
 * path and never leaves its domain by 13. */
static void test_kept_though_14_or_15_follows(void)
{
    uint32_t waiting = 0;

    fresh_router();
    CHECK_EQUAL(set_port(1, NEAR, net24, 16), 0);
    CHECK_EQUAL(set_port(2, FAR, net24, 17), 0);
    CHECK_VERDICT(arrive_with_data(0, at_time(100), 2), 0, 0, PLAIN_TOO_BIG,
                  0);
    CHECK_EQUAL(held(), 1);
    CHECK_VERDICT(arrive(0, at_time(100)), 0, 0, 0, 0);
    CHECK_VERDICT(arrive_with_data(0, at_time(101), 1), 0, 0, 1, 4);
    CHECK_VERDICT(arrive_with_data(0, with_hops(at_time(102), 1), 2), 0, 0,
                  PLAIN_HOPS_USED_UP, 0);
    for (uint32_t time = 0; time < 31; time++)
        CHECK_VERDICT(arrive(0, at_time(time)), 0, 0, 1, OTHERS);
    CHECK_VERDICT(arrive(0, at_time(31)), 0, 0, 1, 2); /* port 2 is full */
    CHECK_VERDICT(arrive(0, at_time(32)), 0, 0, PLAIN_ALL_FULL, 0);
    CHECK_EQUAL(held(), 36);
    empty_queues();
    CHECK_VERDICT(arrive(0, at_time(32)), 0, 0, 0, 0);
    CHECK_EQUAL(plain_waiting(&relay.mission, 1, &waiting), 0);
    CHECK_EQUAL(waiting, 0);
    CHECK_COUNT(PLAIN_TOO_BIG_COUNT, 1);
    CHECK_COUNT(PLAIN_OUT_DISCARDS, 3);
    CHECK_COUNT(PLAIN_LEFT_DOMAIN, 0);
}

/* A port's address and the limited broadcast: delivered, and nothing kept. */
static void test_own_addresses(void)
{
    fresh_with_ports();
    CHECK_VERDICT(arrive(0, flood(HERE)), 0, 1, 0, 0);
    CHECK_VERDICT(arrive(0, flood(FAR)), 0, 1, 0, 0);
    CHECK_VERDICT(arrive(0, narrow(0x02)), 0, 1, 0, 0);
    CHECK_VERDICT(arrive(0, flood(0xffffffff)), 0, 1, 0, 0);
    CHECK_VERDICT(arrive(0, with_hops(flood(HERE), 0)), 0, 1, 0, 0);
    CHECK_EQUAL(held(), 0);
    CHECK_VERDICT(arrive(0, flood(THEIRS)), 0, 0, 1, OTHERS); /* not ours */
    CHECK_EQUAL(held(), 1);
    CHECK_VERDICT(arrive(0, flood(HERE)), 0, 1, 0, 0);
    /* With all places held it is as before. */
    fresh_with_ports();
    hold_pairs(PLAIN_PAIRS);
    CHECK_VERDICT(arrive(0, flood(HERE)), 0, 1, 0, 0);
    CHECK_VERDICT(arrive(0, flood(0xffffffff)), 0, 1, 0, 0);
    CHECK_COUNT(PLAIN_PAIRS_HELD_COUNT, 0);
}

/* The 64th pair is kept, the 65th is not. */
static void test_all_places_held(void)
{
    plain_pair before[PLAIN_PAIRS];

    fresh_with_ports();
    hold_pairs(63);
    CHECK_VERDICT(arrive(0, at_time(63)), 0, 0, 1, OTHERS);
    CHECK_EQUAL(held(), 64);
    CHECK_PAIR(63, 1, SENDER, 0, 63, 62);
    memcpy(before, relay.mission.pairs, sizeof before);
    now = 70;
    CHECK_VERDICT(arrive(0, at_time(64)), 0, 0, PLAIN_PAIRS_HELD, 0);
    CHECK_VERDICT(arrive(0, at_time(64)), 0, 0, PLAIN_PAIRS_HELD, 0);
    CHECK_VERDICT(arrive(0, passing(at_time(65))), 0, 1, PLAIN_PAIRS_HELD, 0);
    CHECK_VERDICT(arrive(0, with_hops(at_time(66), 1)), 0, 0,
                  PLAIN_PAIRS_HELD, 0); /* before 10 */
    CHECK_VERDICT(arrive(0, at_time(0)), 0, 0, 0, 0);
    CHECK_VERDICT(arrive(0, at_time(63)), 0, 0, 0, 0);
    CHECK_EQUAL(memcmp(before, relay.mission.pairs, sizeof before), 0);
    CHECK_COUNT(PLAIN_PAIRS_HELD_COUNT, 4);
    CHECK_COUNT(PLAIN_IN_DELIVERS, 1);
    CHECK_COUNT(PLAIN_FORW_DATAGRAMS, 64);
    CHECK_COUNT(PLAIN_IN_RECEIVES, 70);
    CHECK_EQUAL(counted(), 139);
}

/* 30 before 11: the only port, and all places held by pairs that 11 kept. */
static void test_30_before_11(void)
{
    fresh_router();
    for (uint32_t time = 0; time < PLAIN_PAIRS; time++)
        CHECK_VERDICT(arrive(0, at_time(time)), 0, 0, PLAIN_NO_ROUTE, 0);
    CHECK_VERDICT(arrive(0, at_time(64)), 0, 0, PLAIN_PAIRS_HELD, 0);
    CHECK_COUNT(PLAIN_OUT_NO_ROUTES, 64);
    CHECK_COUNT(PLAIN_PAIRS_HELD_COUNT, 1);
}

/* Pair n came at second n and stands in place n. */
static void test_freed_places(void)
{
    fresh_with_ports();
    hold_pairs(PLAIN_PAIRS);
    CHECK_EQUAL(plain_set_lifetime(&relay.board, 61), 0);
    CHECK_EQUAL(plain_sweep(&view, 64), 0);
    CHECK_EQUAL(held(), 61);
    for (size_t place = 0; place < PLAIN_PAIRS; place++)
        CHECK_EQUAL(place_is_zeros(place), place < 3);
    /* Held pairs are found behind the free places. */
    now = 64;
    CHECK_VERDICT(arrive(0, at_time(3)), 0, 0, 0, 0);
    CHECK_VERDICT(arrive(0, at_time(63)), 0, 0, 0, 0);
    for (uint32_t place = 0; place < 3; place++) {
        CHECK_VERDICT(arrive(0, at_time(2 - place)), 0, 0, 1, OTHERS);
        CHECK_PAIR(place, 1, SENDER, 0, 2 - place, 64);
    }
    CHECK_VERDICT(arrive(0, at_time(64)), 0, 0, PLAIN_PAIRS_HELD, 0);
    /* One place in the middle, between younger ones. */
    CHECK_EQUAL(plain_set_lifetime(&relay.board, 60), 0);
    CHECK_EQUAL(plain_sweep(&view, 64), 0);
    CHECK_EQUAL(held(), 63);
    CHECK_EQUAL(place_is_zeros(3), true);
    CHECK_VERDICT(arrive(0, at_time(64)), 0, 0, 1, OTHERS);
    CHECK_PAIR(3, 1, SENDER, 0, 64, 64);
    CHECK_VERDICT(arrive(0, at_time(65)), 0, 0, PLAIN_PAIRS_HELD, 0);
}

/* One sweep frees as many as are old, the last place too. */
static void test_sweep_of_all_places(void)
{
    fresh_with_ports();
    hold_pairs(PLAIN_PAIRS);
    CHECK_EQUAL(plain_sweep(&view, 63), 0);
    CHECK_EQUAL(held(), 1); /* the one that came at second 63 */
    CHECK_PAIR(63, 1, SENDER, 0, 63, 63);
    CHECK_EQUAL(plain_sweep(&view, 64), 0);
    CHECK_EQUAL(held(), 0);
}

/* An age equal to the lifetime stays, one over it goes. */
static void test_ages(void)
{
    static const uint32_t lifetimes[] = {0, 1, 2, 128, 0x7fffffff, 0x80000000,
                                         UINT32_MAX - 1001};

    for (size_t at = 0; at < sizeof lifetimes / sizeof *lifetimes; at++) {
        uint32_t lifetime = lifetimes[at];

        fresh_with_ports();
        CHECK_EQUAL(plain_set_lifetime(&relay.board, lifetime), 0);
        now = 1000;
        arrive(0, flood(AWAY));
        CHECK_EQUAL(plain_sweep(&view, 1000 + lifetime), 0);
        CHECK_EQUAL(held(), 1);
        CHECK_EQUAL(plain_sweep(&view, 1001 + lifetime), 0);
        CHECK_EQUAL(held(), 0);
        CHECK_EQUAL(place_is_zeros(0), true);
    }
}

/* Second and lifetime together pass 2^32. */
static void test_long_lifetimes(void)
{
    fresh_with_ports();
    CHECK_EQUAL(plain_set_lifetime(&relay.board, UINT32_MAX), 0);
    arrive(0, at_time(0)); /* at second 0 */
    now = UINT32_MAX - 1;
    arrive(0, at_time(1));
    CHECK_EQUAL(plain_sweep(&view, UINT32_MAX), 0);
    CHECK_EQUAL(held(), 2);
    CHECK_EQUAL(plain_set_lifetime(&relay.board, UINT32_MAX - 1), 0);
    CHECK_EQUAL(plain_sweep(&view, UINT32_MAX), 0);
    CHECK_EQUAL(held(), 1);
    CHECK_PAIR(1, 1, SENDER, 0, 1, UINT32_MAX - 1);
    CHECK_EQUAL(plain_set_lifetime(&relay.board, 1), 0);
    CHECK_EQUAL(plain_sweep(&view, UINT32_MAX), 0);
    CHECK_EQUAL(held(), 1);
    CHECK_EQUAL(plain_set_lifetime(&relay.board, 0), 0);
    CHECK_EQUAL(held(), 1); /* until it is swept */
    CHECK_EQUAL(plain_sweep(&view, UINT32_MAX), 0);
    CHECK_EQUAL(held(), 0);
}

/* A sweep has its second accepted or refused as a datagram has. */
static void test_seconds_of_sweeps(void)
{
    fresh_with_ports();
    CHECK_EQUAL(plain_sweep(&view, 0), 0);
    now = 40;
    arrive(0, at_time(1));
    now = 50;
    arrive(0, at_time(2));
    remember();
    CHECK_EQUAL(plain_sweep(&view, 49), PLAIN_SECOND_PAST);
    CHECK_EQUAL(unchanged(), true);
    CHECK_EQUAL(plain_sweep(&view, 50), 0);
    CHECK_EQUAL(held(), 1);
    CHECK_EQUAL(plain_sweep(&view, 60), 0);
    CHECK_EQUAL(relay.mission.last_second, 60);
    CHECK_EQUAL(counted(), 4); /* two received and sent on */
    now = 59;
    CHECK_VERDICT(arrive(0, at_time(3)), PLAIN_SECOND_PAST, 0, 0, 0);
    now = 60;
    CHECK_VERDICT(arrive(0, at_time(3)), 0, 0, 1, OTHERS);
    /* It looks at no list, and at neither ports nor router. */
    plain_board_fresh(&relay.board);
    CHECK_EQUAL(plain_sweep(&long_list_view, 61), 0);
    CHECK_EQUAL(held(), 0);
}

/* A host keeps nothing and looks nothing up. */
static void test_host(void)
{
    fresh_with_ports();
    CHECK_EQUAL(plain_set_router(&relay.board, 0), 0);
    now = 4;
    CHECK_VERDICT(arrive(0, flood(AWAY)), 0, 0, PLAIN_NOT_FOR_US, 0);
    CHECK_VERDICT(arrive(0, flood(AWAY)), 0, 0, PLAIN_NOT_FOR_US, 0);
    CHECK_VERDICT(arrive(0, passing(flood(AWAY))), 0, 1, 0, 0);
    CHECK_VERDICT(arrive(0, flood(0x0a0a0aff)), 0, 1, 0, 0);
    CHECK_VERDICT(arrive(0, flood(HERE)), 0, 1, 0, 0);
    CHECK_VERDICT(arrive(0, flood(0xffffffff)), 0, 1, 0, 0);
    CHECK_EQUAL(held(), 0);
    CHECK_COUNT(PLAIN_IN_ADDR_ERRORS, 2);

    /* Pairs that are held are of no account until it is a router again. */
    fresh_with_ports();
    hold_pairs(PLAIN_PAIRS);
    CHECK_EQUAL(plain_set_router(&relay.board, 0), 0);
    CHECK_VERDICT(arrive(0, at_time(5)), 0, 0, PLAIN_NOT_FOR_US, 0);
    CHECK_VERDICT(arrive(0, at_time(64)), 0, 0, PLAIN_NOT_FOR_US, 0);
    CHECK_EQUAL(plain_set_router(&relay.board, 1), 0);
    CHECK_VERDICT(arrive(0, at_time(5)), 0, 0, 0, 0);
    CHECK_EQUAL(held(), 64);
}

/* Each mission has its pairs and its seconds, and the lifetime is one. */
static void test_missions(void)
{
    fresh_with_ports();
    now = 50;
    CHECK_VERDICT(arrive(0, flood(AWAY)), 0, 0, 1, OTHERS);
    CHECK_EQUAL(held_by(&other), 0);
    CHECK_EQUAL(other.last_second, 0);
    CHECK_VERDICT(arrive_theirs(3, 3, flood(AWAY)), 0, 0, 1, 0x10);
    CHECK_VERDICT(arrive_theirs(4, 3, flood(AWAY)), 0, 0, 0, 0);
    CHECK_EQUAL(other.pairs[0].second, 3);
    CHECK_PAIR(0, 1, SENDER, 0, TIME, 50);
    CHECK_EQUAL(relay.mission.last_second, 50);
    CHECK_VERDICT(arrive_theirs(3, 2, flood(AWAY)), PLAIN_SECOND_PAST, 0, 0,
                  0);
    CHECK_EQUAL(plain_sweep(&their_view, UINT32_MAX), 0);
    CHECK_EQUAL(held_by(&other), 0);
    CHECK_EQUAL(held(), 1);
    CHECK_EQUAL(relay.mission.last_second, 50);

    /* One's places, all held, are nothing to the other. */
    fresh_with_ports();
    hold_pairs(PLAIN_PAIRS);
    CHECK_VERDICT(arrive(0, at_time(64)), 0, 0, PLAIN_PAIRS_HELD, 0);
    CHECK_VERDICT(arrive_theirs(3, 0, at_time(64)), 0, 0, 1, 0x10);
    CHECK_EQUAL(plain_set_lifetime(&relay.board, 7), 0);
    CHECK_EQUAL(plain_sweep(&their_view, 7), 0);
    CHECK_EQUAL(held_by(&other), 1);
    CHECK_EQUAL(plain_sweep(&view, 63), 0);
    CHECK_EQUAL(held(), 8);
    CHECK_EQUAL(held_by(&other), 1);
}

/* Of each class, beside settings that would have it go elsewhere. */
static void test_destinations(void)
{
    plain_record route = {1, {0}, {0}, 0, PLAIN_UP, 0, 0};
    static const uint32_t unheard[] = {
        AWAY, 0x0a04080f, 0xe0000001, 0x0a0409ff, 0xac11ffff, 0xc0000901};
    static const uint32_t delivered[] = {0x0a0a0aff, 0x0a0a0bff, 0x0affffff,
                                         0x0a04090f};
    uint32_t time = 0;

    fresh_with_ports();
    CHECK_EQUAL(plain_set_route(&relay.board, list, 0, &route), 0);
    CHECK_EQUAL(set_group(0, 0x0a04080f, 2, 0), 0);
    CHECK_EQUAL(set_group(1, 0x0a04090f, 1, 1), 0);
    for (size_t at = 0; at < sizeof unheard / sizeof *unheard; at++) {
        plain_fields fields = at_time(time++);

        fields.destination.low = unheard[at];
        CHECK_VERDICT(arrive(0, fields), 0, 0, 1, OTHERS);
    }
    for (size_t at = 0; at < sizeof delivered / sizeof *delivered; at++) {
        plain_fields fields = at_time(time++);

        fields.destination.low = delivered[at];
        CHECK_VERDICT(arrive(0, fields), 0, 1, 1, OTHERS);
        CHECK_VERDICT(arrive(0, fields), 0, 1, 0, 0);
    }
    CHECK_EQUAL(held(), 10);
}

/* Where there is no other port, 11 is said of broadcasts and groups too. The
 * other mission's port is none. */
static void test_destinations_without_another_port(void)
{
    plain_port theirs = {{THEIRS}, {net24}, 8191, 1};

    fresh_router();
    CHECK_EQUAL(plain_set_port(&relay.board, 3, &theirs), 0);
    CHECK_EQUAL(set_group(0, 0x0a04090f, 1, 1), 0);
    CHECK_VERDICT(arrive(0, flood(0x0a0a0aff)), 0, 1, PLAIN_NO_ROUTE, 0);
    CHECK_VERDICT(arrive(0, flood(0x0a0a0aff)), 0, 1, 0, 0);
    CHECK_EQUAL(plain_sweep(&view, 1), 0);
    now = 1;
    CHECK_VERDICT(arrive(0, flood(0x0a04090f)), 0, 1, PLAIN_NO_ROUTE, 0);
    CHECK_EQUAL(held(), 1);
    CHECK_COUNT(PLAIN_OUT_NO_ROUTES, 2);
    CHECK_COUNT(PLAIN_IN_DELIVERS, 3);
}

static void check_header(const plain_verdict *verdict, uint32_t port,
                         plain_fields fields)
{
    uint8_t due[PLAIN_HEADER_MOST];
    uint32_t built = 0;

    CHECK_EQUAL(plain_header_build(&fields, 0, due, sizeof due, &built), 0);
    CHECK_EQUAL(plain_header_octets(verdict, port), built);
    CHECK_EQUAL(memcmp(output + plain_header_at(port), due, built), 0);
}

/* No element is added, whatever a route asks for; one-octet addresses are
 * widened into another domain; a hop count is lessened. */
static void test_headers(void)
{
    plain_record route = {1, {0}, {0}, 1, PLAIN_UP, PLAIN_ASKS_BOTH, 0};
    plain_fields counted_down = with_hops(narrow(0x0e), 5);
    plain_fields widened = flood(0x0a0a0a0e);
    plain_verdict verdict;

    fresh_with_ports();
    CHECK_EQUAL(plain_set_route(&relay.board, list, 0, &route), 0);
    verdict = arrive(0, at_time(1));
    CHECK_EQUAL(verdict.took.bits, OTHERS);
    CHECK_EQUAL(verdict.rewritten.bits, 0);
    check_header(&verdict, 1, at_time(1));
    check_header(&verdict, 2, at_time(1));
    verdict = arrive(0, narrow(0x0e));
    CHECK_EQUAL(verdict.took.bits, OTHERS);
    CHECK_EQUAL(verdict.rewritten.bits, 4);
    check_header(&verdict, 1, narrow(0x0e));
    check_header(&verdict, 2, widened);
    counted_down.time = 2;
    counted_down.checksum_present = 1;
    verdict = arrive(0, counted_down);
    counted_down.hop = 4;
    check_header(&verdict, 1, counted_down);
    widened = with_hops(widened, 4);
    widened.time = 2;
    widened.checksum_present = 1;
    check_header(&verdict, 2, widened);
}

/* One octet from domain to domain is 14 where it was too big once widened, to
 * 16 octets from 10, and never 13. */
static void test_one_octet_into_another_domain(void)
{
    plain_fields again = narrow(0x0e);

    fresh_router();
    CHECK_EQUAL(set_port(1, FAR, net24, 15), 0);
    CHECK_VERDICT(arrive(0, narrow(0x0e)), 0, 0, PLAIN_TOO_BIG, 0);
    CHECK_EQUAL(held(), 1);
    CHECK_EQUAL(set_port(2, FAR, net24, 16), 0);
    again.time = 1;
    CHECK_VERDICT(arrive(0, again), 0, 0, 1, 4);
    CHECK_COUNT(PLAIN_LEFT_DOMAIN, 0);
}

int main(void)
{
    test_fresh();
    test_flooded();
    test_octets_of_a_place();
    test_routing_values();
    test_unmarked();
    test_28_after_6_and_7();
    test_28_before_both_halves();
    test_seconds();
    test_order_of_29();
    test_seconds_of_refused_datagrams();
    test_last_second_of_all();
    test_both_forms_of_a_source();
    test_what_makes_a_pair();
    test_what_is_no_part_of_a_pair();
    test_every_p_field();
    test_repeats();
    test_a_repeat_makes_no_pair_younger();
    test_kept_though_10_or_11_follows();
    test_kept_though_14_or_15_follows();
    test_own_addresses();
    test_all_places_held();
    test_30_before_11();
    test_freed_places();
    test_sweep_of_all_places();
    test_ages();
    test_long_lifetimes();
    test_seconds_of_sweeps();
    test_host();
    test_missions();
    test_destinations();
    test_destinations_without_another_port();
    test_headers();
    test_one_octet_into_another_domain();
    return checks_report("test_floods");
}
