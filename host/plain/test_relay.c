/*
 * Cases for the relay, worked out by hand from page 01: its marked cases a to
 * e and l, its cases by program, each refusal number, each line of the onward
 * half, and where one check comes before another. Each test starts from a
 * fresh relay and looks at the answer, at what was written to the output and
 * at the counters. All ports and routes are mission 0's; what two missions see
 * of each other, and what a list may hold, is tried in test_missions.c, what
 * becomes of the header on its way out in test_legs.c, and what is flooded in
 * test_floods.c.
 *
 * The awkward case is what does not happen: a refusal that writes, counts
 * twice or sends on. So every call goes through `receive` of plain_bed.h.
 */
#include <string.h>

#include "plain_bed.h"
#include "plain_header.h"

enum {
    HERE = 0x0a0a0a02,   /* port 0 */
    BESIDE = 0x0a0a0a04, /* another node on its net */
    FAR = 0x0a0a0b02     /* port 1 */
};

static plain_refusal set_route(uint32_t place, uint32_t prefix, uint32_t mask,
                               uint32_t port, uint32_t availability)
{
    plain_record route = {1, {prefix}, {mask}, port, availability, 0, 0};
    return plain_set_route(&relay.board, list, place, &route);
}

/* A router with as many ports, 10.10.10.2, 10.10.11.2 and so on. */
static void fresh_router(uint32_t ports)
{
    fresh();
    CHECK_EQUAL(plain_set_router(&relay.board, 1), PLAIN_GOOD);
    for (uint32_t port = 0; port < ports; port++)
        CHECK_EQUAL(set_port(port, HERE + (port << 8), net24, 8191),
                    PLAIN_GOOD);
}

static plain_verdict receive_octets(uint32_t arrival, const uint8_t *lent,
                                    size_t count)
{
    memcpy(octets, lent, count);
    return receive(arrival, 1, count);
}

/* Four-octet addresses, TP-ID 6, from the node beside port 0. */
static plain_fields to(uint32_t destination)
{
    plain_fields fields = {.tp_id = 6, .source_present = 1, .extended = 1,
                           .destination = {0, 0}, .source = {0, BESIDE}};

    fields.destination.low = destination;
    return fields;
}

static plain_fields by_path(uint32_t path)
{
    plain_fields fields = {.tp_id = 6, .extended = 1};

    fields.destination.low = path;
    return fields;
}

/* One-octet addresses, from 4. */
static plain_fields to_octet(uint32_t destination)
{
    plain_fields fields = {.tp_id = 6, .source_present = 1,
                           .source = {0, 0x04}};

    fields.destination.low = destination;
    return fields;
}

static plain_verdict send_slot(uint32_t arrival, uint16_t slot,
                               plain_fields fields, uint32_t data)
{
    uint32_t built = 0;

    CHECK_EQUAL(plain_header_build(&fields, data, octets, sizeof octets,
                                   &built), PLAIN_GOOD);
    return receive(arrival, slot, built + data);
}

static plain_verdict send(uint32_t arrival, plain_fields fields)
{
    return send_slot(arrival, 1, fields, 0);
}

static void check_take(uint32_t port, plain_refusal refusal, uint16_t slot,
                       uint16_t precedence)
{
    plain_entry entry = {{0}, 0};

    CHECK_EQUAL(plain_take(&view, port, &entry), refusal);
    CHECK_EQUAL(entry.slot.number, slot);
    CHECK_EQUAL(entry.precedence, precedence);
}

/* All counters; those at the end that are not said are 0. */
#define CHECK_COUNTERS(...) \
    check_counters((const uint32_t[PLAIN_COUNTERS]){__VA_ARGS__})

static void check_counters(const uint32_t *due)
{
    for (size_t at = 0; at < PLAIN_COUNTERS; at++)
        CHECK_EQUAL(relay.mission.counters.counts[at], due[at]);
}

static void test_marked_routes(void)
{
    fresh_router(5);
    CHECK_EQUAL(set_route(0, 0x00000000, 0x00000000, 0, PLAIN_UP), 0);
    CHECK_EQUAL(set_route(1, 0x0a000000, 0xff000000, 1, PLAIN_UP), 0);
    CHECK_EQUAL(set_route(2, 0x0a040900, 0xffffff00, 2, PLAIN_UP), 0);
    CHECK_EQUAL(set_route(3, 0x0a04090e, 0xffffffff, 3, PLAIN_UP), 0);
    CHECK_VERDICT(send(4, to(0x0a04090e)), 0, 0, 1, 8); /* a */
    CHECK_VERDICT(send(4, to(0x0a040910)), 0, 0, 1, 4); /* b */
    CHECK_VERDICT(send(4, to(0x0a04080e)), 0, 0, 1, 2); /* c */
    CHECK_VERDICT(send(4, to(0xc0000201)), 0, 0, 1, 1); /* d */
    CHECK_EQUAL(plain_clear_route(list, 0), 0);
    CHECK_VERDICT(send(4, to(0xc0000201)), 0, 0, PLAIN_NO_ROUTE, 0); /* e */
    CHECK_COUNTERS(5, 0, 0, 0, 0, 0, 0, 0, 0, 0, 4, 1, 0, 0, 0);
}

/* The same routes in the opposite places, so that the last match is worst. */
static void test_longest_match_in_any_place(void)
{
    fresh_router(5);
    CHECK_EQUAL(set_route(511, 0x00000000, 0x00000000, 0, PLAIN_UP), 0);
    CHECK_EQUAL(set_route(40, 0x0a000000, 0xff000000, 1, PLAIN_UP), 0);
    CHECK_EQUAL(set_route(9, 0x0a040900, 0xffffff00, 2, PLAIN_UP), 0);
    CHECK_EQUAL(set_route(0, 0x0a04090e, 0xffffffff, 3, PLAIN_UP), 0);
    CHECK_VERDICT(send(4, to(0x0a04090e)), 0, 0, 1, 8);
    CHECK_VERDICT(send(4, to(0x0a040910)), 0, 0, 1, 4);
    CHECK_VERDICT(send(4, to(0x0a04080e)), 0, 0, 1, 2);
    CHECK_VERDICT(send(4, to(0xc0000201)), 0, 0, 1, 1);
}

static plain_fields with_precedence(plain_fields fields, uint32_t precedence)
{
    fields.basic_qos_present = 1;
    fields.precedence = precedence;
    return fields;
}

static void test_marked_queue(void)
{
    plain_fields fields = to(0x0a0a0b04);

    fresh_router(2);
    CHECK_EQUAL(set_route(0, 0x0a0a0b00, net24, 1, PLAIN_UP), 0);
    send_slot(0, 1, with_precedence(fields, 3), 0);
    send_slot(0, 2, with_precedence(fields, 5), 0);
    send_slot(0, 3, with_precedence(fields, 3), 0);
    send_slot(0, 4, with_precedence(fields, 5), 0);
    check_take(1, 0, 2, 5); /* l */
    check_take(1, 0, 4, 5);
    check_take(1, 0, 1, 3);
    check_take(1, 0, 3, 3);
    check_take(1, PLAIN_NOTHING_WAITS, 0, 0);
    check_take(2, PLAIN_NO_PORT, 0, 0);
    check_take(8, PLAIN_NO_PORT, 0, 0);

    /* No precedence counts as 0, and one between goes between. */
    send_slot(0, 5, fields, 0);
    send_slot(0, 6, with_precedence(fields, 15), 0);
    send_slot(0, 7, with_precedence(fields, 0), 0);
    send_slot(0, 7, with_precedence(fields, 1), 0);
    check_take(1, 0, 6, 15);
    check_take(1, 0, 7, 1);
    check_take(1, 0, 5, 0);
    check_take(1, 0, 7, 0);
}

static void test_no_octets(void)
{
    fresh_router(1);
    CHECK_VERDICT(receive(0, 1, 0), PLAIN_SHORT, 0, 0, 0);
    CHECK_COUNTERS(1, 1, 0, 0, 0, 0, 0, 0, 0, 0, 0, 0, 0, 0, 0);
}

static void test_too_big(void)
{
    plain_fields fields = to(0x0a0a0b04); /* a header of 12 octets */
    static const uint8_t header[] = {0x3f, 0xff, 0x6a, 0x41, 0x0a, 0x0a,
                                     0x0b, 0x04, 0x0a, 0x0a, 0x0a, 0x04};

    fresh_router(1);
    CHECK_EQUAL(set_port(1, FAR, net24, 8190), 0);
    CHECK_EQUAL(set_port(2, FAR, net24, 12), 0);
    CHECK_EQUAL(set_route(0, 0x0a0a0b00, net24, 1, PLAIN_UP), 0);
    memcpy(octets, header, sizeof header);
    CHECK_VERDICT(receive(0, 1, 8191), 0, 0, PLAIN_TOO_BIG, 0);
    octets[1] = 0xfe;
    CHECK_VERDICT(receive(0, 1, 8191), 0, 0, 1, 2);
    CHECK_COUNT(PLAIN_TOO_BIG_COUNT, 1);
    CHECK_COUNT(PLAIN_FORW_DATAGRAMS, 1);

    CHECK_EQUAL(set_route(0, 0x0a0a0b00, net24, 2, PLAIN_UP), 0);
    CHECK_VERDICT(send_slot(0, 1, fields, 0), 0, 0, 1, 4);
    CHECK_VERDICT(send_slot(0, 1, fields, 1), 0, 0, PLAIN_TOO_BIG, 0);
}

static void test_hop_count(void)
{
    plain_fields fields = to(0x0a0a0b04);
    /* 0110 1011, 0110 0001: 15 octets. 200f + 6b61 + 0a0a + 0b04 + 0a0a +
     * 0a04 + 0200 = b68c, and with hop count 1 b58c */
    static const uint8_t arriving[] = {0x20, 0x0f, 0x6b, 0x61, 0x0a, 0x0a,
                                       0x0b, 0x04, 0x0a, 0x0a, 0x0a, 0x04,
                                       0x02, 0x49, 0x73};
    static const uint8_t sent_on[] = {0x20, 0x0f, 0x6b, 0x61, 0x0a, 0x0a,
                                      0x0b, 0x04, 0x0a, 0x0a, 0x0a, 0x04,
                                      0x01, 0x4a, 0x73};
    plain_verdict verdict;

    fresh_router(2);
    CHECK_EQUAL(set_route(0, 0x0a0a0b00, net24, 1, PLAIN_UP), 0);
    verdict = receive_octets(0, arriving, sizeof arriving);
    CHECK_VERDICT(verdict, 0, 0, 1, 2);
    CHECK_EQUAL(plain_header_octets(&verdict, 1), sizeof sent_on);
    CHECK_EQUAL(memcmp(output + plain_header_at(1), sent_on, sizeof sent_on),
                0);
    CHECK_VERDICT(receive_octets(0, sent_on, sizeof sent_on), 0, 0,
                  PLAIN_HOPS_USED_UP, 0);
    fields.hop_present = 1;
    CHECK_VERDICT(send(0, fields), 0, 0, PLAIN_HOPS_USED_UP, 0);
    /* Delivered here, the hop count is not asked. */
    fields.destination.low = HERE;
    CHECK_VERDICT(send(0, fields), 0, 1, 0, 0);
    CHECK_COUNTERS(4, 0, 0, 0, 0, 0, 0, 0, 1, 2, 1, 0, 0, 0, 0);
}

static void test_full_queue(void)
{
    plain_fields fields = to(0x0a0a0b04);
    uint32_t waiting = 0;

    fresh_router(2);
    CHECK_EQUAL(set_route(0, 0x0a0a0b00, net24, 1, PLAIN_UP), 0);
    for (uint16_t slot = 0; slot < 32; slot++)
        CHECK_VERDICT(send_slot(0, slot, fields, 0), 0, 0, 1, 2);
    CHECK_EQUAL(plain_waiting(&relay.mission, 1, &waiting), 0);
    CHECK_EQUAL(waiting, 32);
    CHECK_VERDICT(send_slot(0, 32, with_precedence(fields, 15), 0), 0, 0,
                  PLAIN_ALL_FULL, 0);
    CHECK_COUNTERS(33, 0, 0, 0, 0, 0, 0, 0, 0, 0, 32, 0, 1, 0, 0);
    check_take(1, 0, 0, 0);
    CHECK_VERDICT(send_slot(0, 33, with_precedence(fields, 15), 0), 0, 0, 1,
                  2);
    check_take(1, 0, 33, 15);
    for (uint16_t slot = 1; slot < 32; slot++)
        check_take(1, 0, slot, 0);
    check_take(1, PLAIN_NOTHING_WAITS, 0, 0);
    CHECK_EQUAL(plain_waiting(&relay.mission, 7, &waiting), 0);
    CHECK_EQUAL(waiting, 0);
    CHECK_EQUAL(plain_waiting(&relay.mission, 8, &waiting), PLAIN_SET_NUMBER);
}

static void test_group_with_one_port_full(void)
{
    fresh_router(3);
    CHECK_EQUAL(set_route(0, 0x0a0a0b00, net24, 1, PLAIN_UP), 0);
    CHECK_EQUAL(set_group(0, 0x0a04090f, 6, 0), 0);
    for (uint16_t slot = 0; slot < 32; slot++)
        send_slot(0, slot, to(0x0a0a0b04), 0);
    CHECK_VERDICT(send(0, to(0x0a04090f)), 0, 0, 1, 4);
    CHECK_COUNTERS(33, 0, 0, 0, 0, 0, 0, 0, 0, 0, 33, 0, 1, 0, 0);
    for (uint16_t slot = 1; slot < 32; slot++)
        send_slot(0, slot, to(0x0a04090f), 0);
    CHECK_COUNT(PLAIN_OUT_DISCARDS, 32);
    /* Both full: two copies dropped, one datagram refused. */
    CHECK_VERDICT(send(0, to(0x0a04090f)), 0, 0, PLAIN_ALL_FULL, 0);
    CHECK_COUNT(PLAIN_OUT_DISCARDS, 34);
    CHECK_COUNT(PLAIN_FORW_DATAGRAMS, 64);
}

static void test_port_and_room(void)
{
    plain_slot slot = {1};
    plain_verdict verdict;

    fresh_router(1);
    CHECK_VERDICT(send(1, to(HERE)), PLAIN_NO_PORT, 0, 0, 0);
    CHECK_VERDICT(send(8, to(HERE)), PLAIN_NO_PORT, 0, 0, 0);
    CHECK_VERDICT(send(4294967295, to(HERE)), PLAIN_NO_PORT, 0, 0, 0);
    verdict = plain_receive(&view, 0, slot, 0, octets, 12, output, 399);
    CHECK_VERDICT(verdict, PLAIN_NO_ROOM, 0, 0, 0);
    verdict = plain_receive(&view, 1, slot, 0, octets, 12, output, 0);
    CHECK_VERDICT(verdict, PLAIN_NO_PORT, 0, 0, 0);
    CHECK_COUNT(PLAIN_IN_RECEIVES, 0);
    CHECK_VERDICT(send(0, to(HERE)), 0, 1, 0, 0);
}

static void test_refused_headers(void)
{
    static const uint8_t version[] = {0x40, 0x04, 0x12, 0x14};
    static const uint8_t length[] = {0x20, 0x05, 0x12, 0x14};
    static const uint8_t form[] = {0x20, 0x04, 0x16, 0x14};
    static const uint8_t checksum[] = {0x20, 0x06, 0x13, 0x14, 0, 0};

    fresh_router(1);
    CHECK_VERDICT(receive_octets(0, version, 4), PLAIN_BAD_VERSION, 0, 0, 0);
    CHECK_VERDICT(receive_octets(0, length, 4), PLAIN_BAD_LENGTH, 0, 0, 0);
    CHECK_VERDICT(receive_octets(0, form, 4), PLAIN_BAD_FORM, 0, 0, 0);
    CHECK_VERDICT(receive_octets(0, checksum, 6), PLAIN_BAD_CHECKSUM, 0, 0,
                  0);
    CHECK_COUNTERS(4, 1, 1, 1, 1, 0, 0, 0, 0, 0, 0, 0, 0, 0, 0);
}

static void test_service_not_carried(void)
{
    plain_fields reserved = to(0x0a0409fe); /* before the bad address */
    plain_fields ipv6 = {.tp_id = 6, .source_present = 1, .ipv6 = 1};
    plain_fields octet = to_octet(0x04);

    fresh();
    CHECK_EQUAL(set_port(0, 0xc0000201, net24, 8191), 0);
    reserved.basic_qos_present = 1;
    reserved.routing = 2;
    octet.basic_qos_present = 1;
    octet.routing = 1;
    CHECK_VERDICT(send(0, reserved), PLAIN_NOT_CARRIED, 0, 0, 0);
    CHECK_VERDICT(send(0, ipv6), PLAIN_NOT_CARRIED, 0, 0, 0);
    CHECK_VERDICT(send(0, octet), PLAIN_NOT_CARRIED, 0, 0, 0);
    CHECK_COUNT(PLAIN_UNSUPPORTED, 3);
    CHECK_COUNT(PLAIN_IN_RECEIVES, 3);
}

static void test_addresses_refused(void)
{
    plain_fields fields = to(HERE);

    fresh();
    CHECK_EQUAL(set_port(0, 0xc0000201, net24, 8191), 0);
    CHECK_EQUAL(set_port(1, HERE, net24, 8191), 0);
    /* No domain to supply, be the octet good or not, be it a path or not. */
    CHECK_VERDICT(send(0, to_octet(0x04)), PLAIN_NO_DOMAIN, 0, 0, 0);
    CHECK_VERDICT(send(0, to_octet(0xfe)), PLAIN_NO_DOMAIN, 0, 0, 0);
    fields = by_path(0x14);
    fields.extended = 0;
    CHECK_VERDICT(send(0, fields), PLAIN_NO_DOMAIN, 0, 0, 0);
    CHECK_VERDICT(send(1, to_octet(0xfe)), PLAIN_BAD_ADDRESS, 0, 0, 0);
    CHECK_VERDICT(send(1, to(0x7f000001)), PLAIN_BAD_ADDRESS, 0, 0, 0);
    CHECK_VERDICT(send(1, by_path(0x0a0a0afe)), PLAIN_BAD_ADDRESS, 0, 0, 0);
    CHECK_VERDICT(send(1, by_path(0xc0000201)), PLAIN_BAD_ADDRESS, 0, 0, 0);
    fields = to(HERE);
    fields.source.low = 0x0a0a0a05; /* multicast */
    CHECK_VERDICT(send(1, fields), PLAIN_BAD_ADDRESS, 0, 0, 0);
    fields.source.low = 0x0a0a0aff; /* broadcast */
    CHECK_VERDICT(send(1, fields), PLAIN_BAD_ADDRESS, 0, 0, 0);
    fields.source.low = 0xc00002ff; /* net broadcast */
    CHECK_VERDICT(send(1, fields), PLAIN_BAD_ADDRESS, 0, 0, 0);
    CHECK_COUNTERS(10, 0, 0, 10, 0, 0, 0, 0, 0, 0, 0, 0, 0, 0, 0);
}

static void test_for_this_node(void)
{
    fresh_router(2);
    CHECK_EQUAL(set_route(0, 0, 0, 1, PLAIN_UP), 0);
    CHECK_VERDICT(send(0, to(HERE)), 0, 1, 0, 0);
    CHECK_VERDICT(send(0, to(FAR)), 0, 1, 0, 0); /* any port's address */
    CHECK_VERDICT(send(0, to_octet(0x02)), 0, 1, 0, 0);
    CHECK_VERDICT(send(0, to(0xffffffff)), 0, 1, 0, 0);
    CHECK_COUNT(PLAIN_IN_DELIVERS, 4);

    /* A port's address that is a broadcast under another port's mask. */
    CHECK_EQUAL(set_port(2, 0xc0000281, 0xffffff80, 8191), 0);
    CHECK_EQUAL(set_port(3, 0xc0000301, net24, 8191), 0);
    CHECK_EQUAL(set_port(4, 0xc000023f, 0xfffffe00, 8191), 0);
    CHECK_EQUAL(set_port(5, 0xc0000201, 0xffffffc0, 8191), 0);
    CHECK_VERDICT(send(0, to(0xc000023f)), 0, 1, 0, 0);
    CHECK_COUNT(PLAIN_IN_DELIVERS, 5);
}

static void test_host(void)
{
    plain_fields fields = to(0x0a0a0b04);

    fresh_router(2);
    CHECK_EQUAL(set_route(0, 0, 0, 1, PLAIN_UP), 0);
    CHECK_EQUAL(set_group(0, 0x0a04090f, 2, 1), 0);
    CHECK_EQUAL(plain_set_router(&relay.board, 0), 0);
    CHECK_VERDICT(send(0, fields), 0, 0, PLAIN_NOT_FOR_US, 0);
    CHECK_COUNT(PLAIN_IN_ADDR_ERRORS, 1);
    fields.intermediate = 1;
    CHECK_VERDICT(send(0, fields), 0, 1, 0, 0);
    fields.tp_id = 0;
    CHECK_VERDICT(send(0, fields), 0, 26, 0, 0);
    CHECK_COUNT(PLAIN_IN_UNKNOWN_PROTOS, 1);
    CHECK_VERDICT(send(0, to(0x0a0a0aff)), 0, 1, 0, 0); /* no others asked */
    CHECK_VERDICT(send(0, to(0x0a04090f)), 0, 1, 0, 0);
    CHECK_VERDICT(send(1, to(0x0a04090f)), 0, 0, PLAIN_NOT_FOR_US, 0);
    CHECK_VERDICT(send(0, by_path(0x0a0a0a06)), 0, 0, PLAIN_NOT_FOR_US, 0);
    CHECK_COUNTERS(7, 0, 0, 0, 0, 0, 3, 1, 3, 0, 0, 0, 0, 0, 0);
}

static void test_tp_ids(void)
{
    fresh_router(1);
    for (uint32_t tp_id = 0; tp_id < 16; tp_id++) {
        plain_fields fields = to(HERE);
        bool assigned = tp_id == 1 || tp_id == 4 || tp_id == 5 ||
                        tp_id == 6 || tp_id == 8 || tp_id == 10 ||
                        tp_id == 11;

        fields.tp_id = tp_id;
        CHECK_VERDICT(send(0, fields), 0, assigned ? 1u : 26u, 0, 0);
    }
    CHECK_COUNT(PLAIN_IN_DELIVERS, 7);
    CHECK_COUNT(PLAIN_IN_UNKNOWN_PROTOS, 9);
}

/* 26 does not keep the onward half from going on. */
static void test_unknown_tp_id_goes_on(void)
{
    plain_fields fields = to(0x0a0a0b04);

    fresh_router(2);
    CHECK_EQUAL(set_route(0, 0x0a0a0b00, net24, 1, PLAIN_UP), 0);
    fields.tp_id = 2;
    CHECK_VERDICT(send(0, fields), 0, 0, 1, 2); /* not to be delivered */
    fields.intermediate = 1;
    CHECK_VERDICT(send(0, fields), 0, 26, 1, 2);
    fields.tp_id = 6;
    CHECK_VERDICT(send(0, fields), 0, 1, 1, 2);
    CHECK_COUNTERS(3, 0, 0, 0, 0, 0, 0, 1, 1, 0, 3, 0, 0, 0, 0);
}

static void test_broadcasts_of_ours(void)
{
    fresh_router(1);
    CHECK_VERDICT(send(0, to(0x0a0a0aff)), 0, 1, 0, 0); /* no other port */
    CHECK_EQUAL(set_port(1, FAR, net24, 8191), 0);
    CHECK_EQUAL(set_port(2, 0xc0000201, 0xffffff80, 8191), 0);
    CHECK_EQUAL(set_port(3, 0xac100101, net24, 8191), 0);
    CHECK_VERDICT(send(0, to(0x0a0a0aff)), 0, 1, 1, 0xe); /* domain */
    CHECK_VERDICT(send(0, to(0x0a0a0bff)), 0, 1, 1, 0xe); /* of port 1 */
    CHECK_VERDICT(send(1, to(0x0affffff)), 0, 1, 1, 0xd); /* all SCPS */
    CHECK_VERDICT(send(0, to(0xc00002ff)), 0, 1, 1, 0xe); /* class C net */
    CHECK_VERDICT(send(0, to(0xc000027f)), 0, 1, 1, 0xe); /* its subnet */
    CHECK_VERDICT(send(0, to(0xac10ffff)), 0, 1, 1, 0xe); /* class B net */
    CHECK_VERDICT(send(0, to(0xac1001ff)), 0, 1, 1, 0xe); /* its subnet */
    CHECK_COUNT(PLAIN_FORW_DATAGRAMS, 7);

    /* Not ours: these take the route line. */
    CHECK_VERDICT(send(0, to(0x0a0409ff)), 0, 0, PLAIN_NO_ROUTE, 0);
    CHECK_VERDICT(send(0, to(0xac11ffff)), 0, 0, PLAIN_NO_ROUTE, 0);
    CHECK_EQUAL(set_route(0, 0, 0, 2, PLAIN_UP), 0);
    CHECK_VERDICT(send(0, to(0x0a0409ff)), 0, 0, 1, 4);
}

/* 10.255.255.255 is no broadcast of ours without a port in 10. */
static void test_all_scps_without_net_ten(void)
{
    fresh_router(0);
    CHECK_EQUAL(set_port(0, 0xc0000201, net24, 8191), 0);
    CHECK_EQUAL(set_port(1, 0xac100101, net24, 8191), 0);
    CHECK_VERDICT(send(0, to(0x0affffff)), 0, 0, PLAIN_NO_ROUTE, 0);
}

static void test_multicast(void)
{
    fresh_router(1);
    CHECK_VERDICT(send(0, to(0x0a04090f)), 0, 0, PLAIN_NO_ROUTE, 0);
    CHECK_EQUAL(set_group(0, 0x0a04090f, 1, 1), 0);
    /* Subscribed, and no other port is set up. */
    CHECK_VERDICT(send(0, to(0x0a04090f)), 0, 1, 0, 0);
    CHECK_EQUAL(set_group(0, 0x0a04090f, 1, 0), 0);
    CHECK_VERDICT(send(0, to(0x0a04090f)), 0, 0, PLAIN_NO_ROUTE, 0);

    fresh_router(3);
    CHECK_EQUAL(set_route(0, 0, 0, 1, PLAIN_UP), 0); /* never asked */
    CHECK_EQUAL(set_group(3, 0x0a04090f, 1, 1), 0);
    CHECK_VERDICT(send(0, to(0x0a04090f)), 0, 1, PLAIN_NO_ROUTE, 0);
    CHECK_VERDICT(send(1, to(0x0a04090f)), 0, 0, 1, 1);
    CHECK_EQUAL(set_group(3, 0x0a04090f, 7, 5), 0);
    CHECK_VERDICT(send(0, to(0x0a04090f)), 0, 1, 1, 6);
    CHECK_VERDICT(send(1, to(0x0a04090f)), 0, 0, 1, 5);
    CHECK_VERDICT(send(1, to(0xe0000001)), 0, 0, PLAIN_NO_ROUTE, 0);
    CHECK_EQUAL(set_group(15, 0xe0000001, 4, 0), 0);
    CHECK_VERDICT(send(1, to(0xe0000001)), 0, 0, 1, 4);
    CHECK_EQUAL(plain_clear_group(&relay.mission, 15), 0);
    CHECK_VERDICT(send(1, to(0xe0000001)), 0, 0, PLAIN_NO_ROUTE, 0);
}

static void test_paths(void)
{
    plain_fields octet = {.tp_id = 6, .destination = {0, 0x06}};
    plain_fields passing = by_path(0x0a0a0a08);

    fresh_router(3);
    CHECK_EQUAL(set_route(0, 0, 0, 1, PLAIN_UP), 0); /* never asked */
    CHECK_VERDICT(send(0, by_path(0x0a0a0a06)), 0, 0, PLAIN_NO_ROUTE, 0);
    CHECK_EQUAL(set_path(0, 0x0a0a0a06, 6, 0), 0);
    CHECK_VERDICT(send(0, by_path(0x0a0a0a06)), 0, 0, 1, 6);
    CHECK_VERDICT(send(1, by_path(0x0a0a0a06)), 0, 0, 1, 4);
    CHECK_EQUAL(set_path(0, 0x0a0a0a06, 1, 0), 0);
    CHECK_VERDICT(send(0, by_path(0x0a0a0a06)), 0, 0, PLAIN_NO_ROUTE, 0);
    CHECK_VERDICT(send(0, octet), 0, 0, PLAIN_NO_ROUTE, 0);
    CHECK_EQUAL(set_path(0, 0x0a0a0a06, 1, 1), 0);
    CHECK_VERDICT(send(0, by_path(0x0a0a0a06)), 0, 1, 0, 0);
    CHECK_VERDICT(send(0, octet), 0, 1, 0, 0); /* filled in */
    CHECK_VERDICT(send(1, octet), 0, 0, PLAIN_NO_ROUTE, 0); /* 10.10.11.6 */

    /* The flag delivers, but does not make the place "delivered here"; and
     * "delivered here" holds where the TP-ID is unknown. */
    passing.intermediate = 1;
    CHECK_VERDICT(send(0, passing), 0, 1, PLAIN_NO_ROUTE, 0);
    octet.tp_id = 15;
    CHECK_VERDICT(send(0, octet), 0, 26, 0, 0);
    CHECK_EQUAL(plain_clear_path(&relay.mission, 0), 0);
    CHECK_VERDICT(send(0, octet), 0, 0, PLAIN_NO_ROUTE, 0);
}

/* A path is a path, even where its number is an address of ours. */
static void test_path_is_no_address(void)
{
    fresh_router(2);
    CHECK_EQUAL(set_group(0, 0x0a04090f, 2, 1), 0);
    CHECK_VERDICT(send(0, by_path(HERE)), 0, 0, PLAIN_NO_ROUTE, 0);
    CHECK_VERDICT(send(0, by_path(0x0a0a0aff)), 0, 0, PLAIN_NO_ROUTE, 0);
    CHECK_VERDICT(send(0, by_path(0x0affffff)), 0, 0, PLAIN_NO_ROUTE, 0);
    CHECK_VERDICT(send(0, by_path(0x0a04090f)), 0, 0, PLAIN_NO_ROUTE, 0);
    CHECK_EQUAL(set_path(0, 0x0a0a0aff, 2, 0), 0);
    CHECK_VERDICT(send(0, by_path(0x0a0a0aff)), 0, 0, 1, 2);
    CHECK_COUNT(PLAIN_IN_DELIVERS, 0);
}

static void test_routes(void)
{
    fresh_router(2);
    CHECK_VERDICT(send(0, to(0xc0000301)), 0, 0, PLAIN_NO_ROUTE, 0);
    CHECK_EQUAL(set_route(0, 0, 0, 1, PLAIN_UP), 0);
    CHECK_VERDICT(send(0, to(0xc0000301)), 0, 0, 1, 2);
    CHECK_COUNT(PLAIN_OUT_NO_ROUTES, 1);
    CHECK_EQUAL(set_route(1, 0xc0000300, net24, 0, PLAIN_UP), 0);
    CHECK_VERDICT(send(0, to(0xc0000301)), 0, 0, 1, 1); /* the arrival port */
}

/* A route that is not up hides none that is shorter, and is none itself. */
static void test_routes_not_up(void)
{
    fresh_router(2);
    for (uint32_t code = PLAIN_DOWN; code <= PLAIN_OUT; code++) {
        CHECK_EQUAL(set_route(0, 0, 0, 0, code), 0);
        CHECK_EQUAL(set_route(1, 0xc0000300, net24, 1, code), 0);
        CHECK_VERDICT(send(0, to(0xc0000301)), 0, 0, PLAIN_NO_ROUTE, 0);
        CHECK_EQUAL(set_route(0, 0, 0, 0, PLAIN_UP), 0);
        CHECK_VERDICT(send(0, to(0xc0000301)), 0, 0, 1, 1);
        CHECK_EQUAL(set_route(2, 0xc0000000, 0xff000000, 1, PLAIN_UP), 0);
        CHECK_VERDICT(send(0, to(0xc0000301)), 0, 0, 1, 2);
        CHECK_EQUAL(plain_clear_route(list, 2), 0);
    }
    CHECK_COUNT(PLAIN_OUT_NO_ROUTES, 3);
    CHECK_COUNT(PLAIN_FORW_DATAGRAMS, 6);
    /* The same entry elsewhere is refused, up or not. */
    CHECK_EQUAL(set_route(5, 0xc0000300, net24, 1, PLAIN_UP), PLAIN_SET_SAME);
    CHECK_EQUAL(set_route(5, 0, 0, 1, PLAIN_DOWN), PLAIN_SET_SAME);
}

static void check_found(uint32_t address, uint32_t place, uint32_t ones,
                        uint32_t port)
{
    plain_address asked = {address};
    plain_found found = plain_search(&view, asked);

    CHECK_EQUAL(found.found, true);
    CHECK_EQUAL(found.place, place);
    CHECK_EQUAL(found.ones, ones);
    CHECK_EQUAL(found.port, port);
}

static void check_none(uint32_t address)
{
    plain_address asked = {address};
    plain_found found = plain_search(&view, asked);

    CHECK_EQUAL(found.found, false);
    CHECK_EQUAL(found.place | found.ones | found.port, 0);
}

/* The marked cases a to e, by the place that serves each. */
static void test_search(void)
{
    static plain_record before[PLAIN_ROUTES];

    fresh_router(4);
    check_none(0x0a04090e);
    CHECK_EQUAL(set_route(0, 0x00000000, 0x00000000, 0, PLAIN_UP), 0);
    check_found(0x0a04090e, 0, 0, 0); /* 0 ones is not "no" */
    CHECK_EQUAL(set_route(511, 0x0a000000, 0xff000000, 1, PLAIN_UP), 0);
    CHECK_EQUAL(set_route(7, 0x0a040900, 0xffffff00, 2, PLAIN_UP), 0);
    CHECK_EQUAL(set_route(9, 0x0a04090e, 0xffffffff, 3, PLAIN_UP), 0);
    CHECK_EQUAL(set_route(2, 0x80000000, 0x80000000, 2, PLAIN_UP), 0);
    memcpy(before, relay.records, sizeof before);
    check_found(0x0a04090e, 9, 32, 3);
    check_found(0x0a040910, 7, 24, 2);
    check_found(0x0a04080e, 511, 8, 1);
    check_found(0xc0000201, 2, 1, 2);
    check_found(0x7fffffff, 0, 0, 0); /* no class, and an answer */
    CHECK_EQUAL(memcmp(before, relay.records, sizeof before), 0);
    CHECK_EQUAL(plain_clear_route(list, 0), 0);
    check_none(0x7fffffff);
    check_none(0);
}

/* A route that is not up is passed over. */
static void test_search_of_routes_not_up(void)
{
    fresh_router(2);
    for (uint32_t code = PLAIN_DOWN; code <= PLAIN_OUT; code++) {
        CHECK_EQUAL(set_route(1, 0xc0000300, net24, 0, code), 0);
        check_none(0xc0000301);
        CHECK_EQUAL(set_route(0, 0, 0, 1, PLAIN_UP), 0);
        check_found(0xc0000301, 0, 0, 1);
        CHECK_EQUAL(plain_clear_route(list, 0), 0);
    }
    CHECK_EQUAL(set_route(1, 0xc0000300, net24, 0, PLAIN_UP), 0);
    check_found(0xc0000301, 1, 24, 0);
}

/* A one-octet path stays in its domain; one-octet addresses need not. */
static void test_leaving_the_domain(void)
{
    plain_fields path = {.tp_id = 6, .destination = {0, 0x06}};

    fresh_router(2);
    CHECK_EQUAL(set_port(2, 0x0a0a0a08, net24, 8191), 0);
    CHECK_EQUAL(set_port(3, 0xc0000201, net24, 8191), 0);
    CHECK_EQUAL(set_route(0, 0x0a0a0a20, 0xffffffff, 1, PLAIN_UP), 0);
    CHECK_EQUAL(set_path(0, 0x0a0a0a06, 0xe, 0), 0);
    CHECK_VERDICT(send(0, path), 0, 0, 1, 4);
    CHECK_VERDICT(send(0, by_path(0x0a0a0a06)), 0, 0, 1, 0xe);
    CHECK_EQUAL(set_path(0, 0x0a0a0a06, 0xa, 0), 0);
    CHECK_VERDICT(send(0, path), 0, 0, PLAIN_LEAVES_DOMAIN, 0);
    CHECK_EQUAL(set_path(0, 0x0a0a0a06, 0xa, 1), 0);
    CHECK_VERDICT(send(0, path), 0, 1, PLAIN_LEAVES_DOMAIN, 0);
    CHECK_VERDICT(send(0, to_octet(0x20)), 0, 0, 1, 2);
    CHECK_VERDICT(send(0, to_octet(0xff)), 0, 1, 1, 0xe);
    CHECK_VERDICT(send(1, to_octet(0xff)), 0, 1, 1, 0xd);
    CHECK_COUNTERS(7, 0, 0, 0, 0, 0, 0, 0, 3, 0, 5, 0, 0, 2, 0);
}

/* 10 before 13 before 14 before 15. */
static void test_order_of_striking_out(void)
{
    /* A header of 4 octets, with a hop count 6. */
    plain_fields path = {.tp_id = 6, .destination = {0, 0x06}};

    fresh_router(1);
    CHECK_EQUAL(set_port(1, FAR, net24, 5), 0);
    CHECK_EQUAL(set_port(2, 0x0a0a0a08, net24, 5), 0);
    CHECK_EQUAL(set_path(0, 0x0a0a0a06, 2, 1), 0);
    path.hop_present = 1;
    path.hop = 1;
    CHECK_VERDICT(send(0, path), 0, 1, PLAIN_HOPS_USED_UP, 0);
    path.hop = 2;
    CHECK_VERDICT(send(0, path), 0, 1, PLAIN_LEAVES_DOMAIN, 0);
    CHECK_EQUAL(set_path(0, 0x0a0a0a06, 6, 1), 0);
    CHECK_VERDICT(send(0, path), 0, 1, PLAIN_TOO_BIG, 0);
    path.hop_present = 0;
    path.hop = 0;
    for (unsigned round = 0; round < 32; round++)
        CHECK_VERDICT(send_slot(0, 1, path, 1), 0, 1, 1, 4);
    CHECK_VERDICT(send_slot(0, 1, path, 2), 0, 1, PLAIN_TOO_BIG, 0);
    CHECK_VERDICT(send_slot(0, 1, path, 1), 0, 1, PLAIN_ALL_FULL, 0);
    CHECK_COUNT(PLAIN_OUT_DISCARDS, 1);
    CHECK_COUNT(PLAIN_IN_DELIVERS, 37);
}

/* Ports struck out are no copies: they count nothing while one is left. */
static void test_struck_out_counts_nothing(void)
{
    fresh_router(1);
    CHECK_EQUAL(set_port(1, FAR, net24, 11), 0);
    CHECK_EQUAL(set_port(2, FAR, net24, 8191), 0);
    CHECK_VERDICT(send(0, to(0x0a0a0aff)), 0, 1, 1, 4);
    CHECK_COUNTERS(1, 0, 0, 0, 0, 0, 0, 0, 1, 0, 1, 0, 0, 0, 0);
}

static void test_port_settings(void)
{
    fresh();
    CHECK_EQUAL(set_port(8, 0xe0000001, 0, 0), PLAIN_SET_NUMBER);
    CHECK_EQUAL(set_port(4294967295, HERE, net24, 1), PLAIN_SET_NUMBER);
    CHECK_EQUAL(set_port(0, 0xe0000001, 0, 0), PLAIN_SET_CLASS);
    CHECK_EQUAL(set_port(0, 0x0a0a0aff, net24, 1), PLAIN_SET_CLASS);
    CHECK_EQUAL(set_port(0, 0xc00002ff, 0xfffffe00, 1), PLAIN_SET_CLASS);
    CHECK_EQUAL(set_port(0, 0xc0000201, 0xff00ff00, 0), PLAIN_SET_MASK);
    CHECK_EQUAL(set_port(0, 0xc0000201, 0xfe000000, 1), PLAIN_SET_MASK);
    CHECK_EQUAL(set_port(0, 0xc0000202, 0xfffffffe, 1), PLAIN_SET_MASK);
    CHECK_EQUAL(set_port(0, 0xc0000202, 0xffffffff, 1), PLAIN_SET_MASK);
    CHECK_EQUAL(set_port(0, HERE, 0xffff0000, 1), PLAIN_SET_MASK);
    CHECK_EQUAL(set_port(0, HERE, 0xffffff80, 1), PLAIN_SET_MASK);
    CHECK_EQUAL(set_port(0, 0xc000027f, 0xffffff80, 1), PLAIN_SET_MASK);
    CHECK_EQUAL(set_port(0, HERE, net24, 0), PLAIN_SET_CODE);
    CHECK_EQUAL(set_port(0, HERE, net24, 8192), PLAIN_SET_CODE);
    CHECK_EQUAL(relay.board.set_up.bits, 0);
    CHECK_EQUAL(set_port(0, HERE, net24, 1), 0);
    CHECK_EQUAL(set_port(1, HERE, net24, 8191), 0); /* may be shared */
    CHECK_EQUAL(set_port(2, 0xc0000201, 0xff000000, 1), 0);
    CHECK_EQUAL(set_port(3, 0xc0000202, 0xfffffffc, 1), 0);
    CHECK_EQUAL(set_port(4, 0xc0000200, net24, 1), 0); /* host bits zero */
    CHECK_EQUAL(relay.board.set_up.bits, 0x1f);
}

/* 35 comes last, and whether entries wait does not matter. */
static void test_port_written_once(void)
{
    fresh_router(2);
    CHECK_EQUAL(set_port(1, FAR, net24, 8191), PLAIN_SET_TWICE);
    CHECK_EQUAL(set_port(1, FAR, net24, 5), PLAIN_SET_TWICE);
    CHECK_EQUAL(set_port(1, FAR, net24, 0), PLAIN_SET_CODE);
    CHECK_EQUAL(set_port(1, FAR, 0xffff0000, 0), PLAIN_SET_MASK);
    CHECK_EQUAL(set_port(1, 0xe0000001, net24, 0), PLAIN_SET_CLASS);
    CHECK_EQUAL(relay.board.ports[1].mtu, 8191);
    CHECK_EQUAL(set_route(0, 0, 0, 1, PLAIN_UP), 0);
    send(0, to(0xc0000301));
    CHECK_EQUAL(set_port(1, FAR, net24, 8191), PLAIN_SET_TWICE);
    check_take(1, 0, 1, 0);
    CHECK_EQUAL(set_port(1, FAR, net24, 8191), PLAIN_SET_TWICE);
    CHECK_EQUAL(set_port(2, FAR, net24, 8191), 0);
}

static plain_refusal set_capabilities(uint32_t capabilities)
{
    plain_record route = {1, {0}, {0}, 0, PLAIN_UP, capabilities, 0};
    return plain_set_route(&relay.board, list, 0, &route);
}

static void test_route_settings(void)
{
    fresh_router(2);
    CHECK_EQUAL(set_route(512, 1, 0, 9, 9), PLAIN_SET_NUMBER);
    CHECK_EQUAL(set_route(0, 1, 0, 8, 9), PLAIN_SET_NUMBER);
    CHECK_EQUAL(set_route(0, 1, 0, 2, 9), PLAIN_SET_NUMBER);
    CHECK_EQUAL(set_route(0, 1, 0, 1, 9), PLAIN_SET_MASK);
    CHECK_EQUAL(set_route(0, 0, 1, 1, 1), PLAIN_SET_MASK);
    CHECK_EQUAL(set_route(0, 0x0a040901, net24, 1, 1), PLAIN_SET_MASK);
    CHECK_EQUAL(set_route(0, 0x0a040900, net24, 1, 1), 0);
    CHECK_EQUAL(set_route(1, 0x0a040900, net24, 1, 0), PLAIN_SET_CODE);
    CHECK_EQUAL(set_route(1, 0x0a040900, net24, 1, 5), PLAIN_SET_CODE);
    CHECK_EQUAL(set_route(1, 0x0a040900, net24, 0, 2), PLAIN_SET_SAME);
    CHECK_EQUAL(set_route(0, 0x0a040900, net24, 0, 2), 0); /* over itself */
    CHECK_EQUAL(set_route(1, 0x0a040900, 0xffffffff, 0, 2), 0);
    CHECK_EQUAL(plain_clear_route(list, 512), PLAIN_SET_NUMBER);
    CHECK_EQUAL(plain_clear_route(list, 0), 0);
    CHECK_EQUAL(plain_clear_route(list, 0), 0);
    CHECK_EQUAL(set_route(511, 0x0a040900, net24, 0, 2), 0);
    CHECK_EQUAL(set_capabilities(1), 0); /* and the default route is new */
    CHECK_EQUAL(set_capabilities(2), 0);
    CHECK_EQUAL(set_capabilities(3), PLAIN_SET_CODE);
    CHECK_EQUAL(set_capabilities(4), 0);
    CHECK_EQUAL(set_capabilities(5), PLAIN_SET_CODE);
}

static void test_group_settings(void)
{
    fresh_router(2);
    CHECK_EQUAL(set_group(16, HERE, 0, 0), PLAIN_SET_NUMBER);
    CHECK_EQUAL(set_group(0, HERE, 4, 0), PLAIN_SET_NUMBER);
    CHECK_EQUAL(set_group(0, HERE, 0, 256), PLAIN_SET_NUMBER);
    CHECK_EQUAL(set_group(0, HERE, 3, 3), PLAIN_SET_CLASS);
    CHECK_EQUAL(set_group(0, 0, 3, 3), PLAIN_SET_CLASS);
    CHECK_EQUAL(set_group(0, 0x0a0409ff, 3, 3), PLAIN_SET_CLASS);
    CHECK_EQUAL(set_group(0, 0x0a04090f, 0, 0), 0);
    CHECK_EQUAL(set_group(15, 0x0a04090f, 3, 3), PLAIN_SET_SAME);
    CHECK_EQUAL(set_group(0, 0x0a04090f, 3, 3), 0);
    CHECK_EQUAL(plain_clear_group(&relay.mission, 16), PLAIN_SET_NUMBER);
    CHECK_EQUAL(plain_clear_group(&relay.mission, 0), 0);
    CHECK_EQUAL(plain_clear_group(&relay.mission, 0), 0);
    CHECK_EQUAL(set_group(15, 0x0a04090f, 3, 3), 0);
}

static void test_path_settings(void)
{
    fresh_router(2);
    CHECK_EQUAL(set_path(16, 0, 4, 2), PLAIN_SET_NUMBER);
    CHECK_EQUAL(set_path(0, 0, 4, 2), PLAIN_SET_NUMBER);
    CHECK_EQUAL(set_path(0, 0, 3, 2), PLAIN_SET_CLASS);
    CHECK_EQUAL(set_path(0, 0x0a0409fe, 3, 2), PLAIN_SET_CLASS);
    CHECK_EQUAL(set_path(0, 0x0a0409ff, 3, 1), 0);
    CHECK_EQUAL(set_path(1, 0x0a0409ff, 3, 2), PLAIN_SET_CODE);
    CHECK_EQUAL(set_path(1, 0x0a0409ff, 3, 1), PLAIN_SET_SAME);
    CHECK_EQUAL(set_path(0, 0x0a0409ff, 0, 0), 0);
    CHECK_EQUAL(plain_clear_path(&relay.mission, 16), PLAIN_SET_NUMBER);
    CHECK_EQUAL(plain_clear_path(&relay.mission, 0), 0);
    CHECK_EQUAL(plain_clear_path(&relay.mission, 0), 0);
    CHECK_EQUAL(set_path(15, 0x0a0409ff, 0, 0), 0);
}

/* A place emptied is as it was when fresh, and refusals change nothing. */
static void test_settings_leave_no_trace(void)
{
    static uint8_t before[sizeof relay];

    fresh_router(2);
    memcpy(before, &relay, sizeof relay);
    CHECK_EQUAL(set_route(5, 0x0a000000, 0xff000000, 1, PLAIN_UP), 0);
    CHECK_EQUAL(set_group(6, 0xe0000001, 3, 1), 0);
    CHECK_EQUAL(set_path(7, 0x0a040908, 3, 1), 0);
    CHECK_EQUAL(plain_clear_route(list, 5), 0);
    CHECK_EQUAL(plain_clear_group(&relay.mission, 6), 0);
    CHECK_EQUAL(plain_clear_path(&relay.mission, 7), 0);
    CHECK_EQUAL(plain_set_router(&relay.board, 2), PLAIN_SET_CODE);
    CHECK_EQUAL(set_route(0, 1, 0, 1, PLAIN_UP), PLAIN_SET_MASK);
    CHECK_EQUAL(memcmp(before, &relay, sizeof relay), 0);
}

int main(void)
{
    test_marked_routes();
    test_longest_match_in_any_place();
    test_marked_queue();
    test_no_octets();
    test_too_big();
    test_hop_count();
    test_full_queue();
    test_group_with_one_port_full();
    test_port_and_room();
    test_refused_headers();
    test_service_not_carried();
    test_addresses_refused();
    test_for_this_node();
    test_host();
    test_tp_ids();
    test_unknown_tp_id_goes_on();
    test_broadcasts_of_ours();
    test_all_scps_without_net_ten();
    test_multicast();
    test_paths();
    test_path_is_no_address();
    test_routes();
    test_routes_not_up();
    test_search();
    test_search_of_routes_not_up();
    test_leaving_the_domain();
    test_order_of_striking_out();
    test_struck_out_counts_nothing();
    test_port_settings();
    test_port_written_once();
    test_route_settings();
    test_group_settings();
    test_path_settings();
    test_settings_leave_no_trace();
    return checks_report("test_relay");
}
