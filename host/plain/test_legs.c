/*
 * Cases of page 02, W-214, worked out by hand: the header rewritten for the
 * next leg, and what goes on as it came.
 *
 * Datagrams and headers are written in hexadecimal digits. Of a datagram the
 * digits give the header; its data are as long as the length field says. An
 * answer is one line: refusal, local half, onward half, the set that took, the
 * set of those with the rewritten header, and the headers, lowest port first.
 *
 * The awkward case is a header that looks right because it was kept where it
 * should have been written anew, or the other way about. So the set of the
 * rewritten stands in every line.
 */
#include <stdio.h>
#include <string.h>

#include "plain_bed.h"
#include "plain_header.h"

enum {
    HERE = 0x0a0a0a02,  /* port 0, by which most datagrams come */
    NEAR = 0x0a0a0a06,  /* port 1, in the same domain */
    FAR = 0x0a0a0b02,   /* port 2, in another */
    CODES = 4
};

static const uint32_t ELSEWHERE = 0xc0000201; /* port 3, in no domain */
static const uint32_t codes[CODES] = {
    PLAIN_ASKS_NOTHING, PLAIN_ASKS_CHECKSUM, PLAIN_ASKS_HOP_COUNT,
    PLAIN_ASKS_BOTH};

/* Without elements that a route may ask for. */
static const char to_14[] = "20061a400e04";   /* 10.10.10.14, from .4 */
static const char to_all[] = "20061a40ff04";  /* 10.10.10.255 */
static const char afar[] = "200c1a410a04090e0a0a0a04"; /* 10.4.9.14 */

static plain_refusal route(uint32_t place, uint32_t prefix, uint32_t mask,
                           uint32_t port, uint32_t capabilities)
{
    plain_record record = {1, {prefix}, {mask}, port, PLAIN_UP, capabilities,
                           0};
    return plain_set_route(&relay.board, list, place, &record);
}

/* The only route: of every address to this port. */
static void route_all(uint32_t port, uint32_t capabilities)
{
    CHECK_EQUAL(route(0, 0, 0, port, capabilities), 0);
}

static void fresh_router(void)
{
    fresh();
    CHECK_EQUAL(plain_set_router(&relay.board, 1), 0);
    CHECK_EQUAL(set_port(0, HERE, net24, 8191), 0);
}

static void fresh_with_legs(void)
{
    fresh_router();
    CHECK_EQUAL(set_port(1, NEAR, net24, 8191), 0);
    CHECK_EQUAL(set_port(2, FAR, net24, 8191), 0);
    CHECK_EQUAL(set_port(3, ELSEWHERE, net24, 8191), 0);
}

static plain_verdict arrive(uint32_t arrival, const char *header)
{
    unsigned octet;

    for (size_t at = 0; sscanf(header + 2 * at, "%2x", &octet) == 1; at++)
        octets[at] = (uint8_t)octet;
    return receive(arrival, 1, (octets[0] & 0x1fu) << 8 | octets[1]);
}

static void put_line(const plain_verdict *verdict, char *line)
{
    const char *between = " ";

    line += sprintf(line, "%u %u %u %u %u", (unsigned)verdict->refusal,
                    (unsigned)verdict->local, (unsigned)verdict->onward,
                    (unsigned)verdict->took.bits,
                    (unsigned)verdict->rewritten.bits);
    for (uint32_t port = 0; port < PLAIN_PORTS; port++) {
        const uint8_t *header = output + plain_header_at(port);
        uint32_t count = plain_header_octets(verdict, port);

        if (count == 0)
            continue;
        line += sprintf(line, "%s", between);
        between = ",";
        for (uint32_t at = 0; at < count; at++)
            line += sprintf(line, "%02x", header[at]);
    }
}

#define CHECK_LINE(arrival, header, due) \
    check_line(__LINE__, arrival, header, due)

static void check_line(int at, uint32_t arrival, const char *header,
                       const char *due)
{
    plain_verdict verdict = arrive(arrival, header);
    char line[1000];

    put_line(&verdict, line);
    if (strcmp(line, due) == 0) {
        checks_passed++;
        return;
    }
    checks_failed++;
    printf("%s:%d: %s, due is %s\n", __FILE__, at, line, due);
}

/* One-octet addresses cross into another domain as four octets, and stay in
 * their own as they are. */
static void test_widened(void)
{
    fresh_with_legs();
    route_all(2, 0);
    CHECK_LINE(0, to_14, "0 0 1 4 4 200c1a410a0a0a0e0a0a0a04");
    route_all(3, 0);
    CHECK_LINE(0, to_14, "0 0 1 8 8 200c1a410a0a0a0e0a0a0a04");
    route_all(1, 0);
    CHECK_LINE(0, to_14, "0 0 1 2 0 20061a400e04");
    route_all(0, 0);
    CHECK_LINE(0, to_14, "0 0 1 1 0 20061a400e04");
    /* Filled in from the port it comes by, not from the one it leaves by. */
    CHECK_LINE(2, to_14, "0 0 1 1 1 200c1a410a0a0b0e0a0a0b04");
    /* Four octets are four octets everywhere. */
    route_all(2, 0);
    CHECK_LINE(0, "200c1a410a0a0a0e0a0a0a04",
               "0 0 1 4 0 200c1a410a0a0a0e0a0a0a04");
    CHECK_COUNT(PLAIN_FORW_DATAGRAMS, 6);
    CHECK_COUNT(PLAIN_LEFT_DOMAIN, 0);
}

/* Domains are the same where all of the first three octets are. */
static void test_domains(void)
{
    fresh_router();
    CHECK_EQUAL(set_port(1, 0x0a0a0afc, net24, 8191), 0);
    CHECK_EQUAL(set_port(2, 0x0a0a0b02, net24, 8191), 0);
    CHECK_EQUAL(set_port(3, 0x0a0b0a02, net24, 8191), 0);
    CHECK_EQUAL(set_port(4, 0x0b0a0a02, net24, 8191), 0);
    for (uint32_t port = 1; port <= 4; port++) {
        plain_verdict verdict;

        route_all(port, 0);
        verdict = arrive(0, to_14);
        CHECK_EQUAL(verdict.took.bits, 1u << port);
        CHECK_EQUAL(verdict.rewritten.bits, port == 1 ? 0 : 1u << port);
        CHECK_EQUAL(verdict.arriving_octets, 6);
        CHECK_EQUAL(verdict.rewritten_octets, port == 1 ? 0 : 12);
        CHECK_EQUAL(plain_header_octets(&verdict, port), port == 1 ? 6 : 12);
    }
}

/* What was there stays there: the hop count less one, the checksum redone. */
static void test_widened_with_elements(void)
{
    fresh_with_legs();
    route_all(2, 0);
    CHECK_LINE(0, "20071a600e0405", "0 0 1 4 4 200d1a610a0a0a0e0a0a0a0404");
    CHECK_LINE(0, "20081b400e04b6b3",
               "0 0 1 4 4 200e1b410a0a0a0e0a0a0a049c8a");
    CHECK_LINE(0, "20091b600e0405b192",
               "0 0 1 4 4 200f1b610a0a0a0e0a0a0a04049869");
    route_all(1, 0);
    CHECK_LINE(0, "20071a600e0405", "0 0 1 2 0 20071a600e0404");
    CHECK_LINE(0, "20081b400e04b6b3", "0 0 1 2 0 20081b400e04b6b3");
    CHECK_LINE(0, "20091b600e0405b192", "0 0 1 2 0 20091b600e0404b292");
}

/* By each code, to a header that lacks both elements, one, the other, none. */
static void test_elements_added(void)
{
    static const char hop[] = "200d1a610a04090e0a0a0a0405";
    static const char checksum[] = "200e1b410a04090e0a0a0a049d90";
    static const char both[] = "200f1b610a04090e0a0a0a0405986f";
    static const char added_both[] =
        "0 0 1 4 4 200f1b610a04090e0a0a0a04405d6f";
    static const char added_checksum[] =
        "0 0 1 4 4 200f1b610a04090e0a0a0a0404996f";

    fresh_with_legs();
    route_all(2, PLAIN_ASKS_NOTHING);
    CHECK_LINE(0, afar, "0 0 1 4 0 200c1a410a04090e0a0a0a04");
    CHECK_LINE(0, checksum, "0 0 1 4 0 200e1b410a04090e0a0a0a049d90");
    CHECK_LINE(0, hop, "0 0 1 4 0 200d1a610a04090e0a0a0a0404");
    route_all(2, PLAIN_ASKS_CHECKSUM);
    CHECK_LINE(0, afar, "0 0 1 4 4 200e1b410a04090e0a0a0a049d90");
    CHECK_LINE(0, checksum, "0 0 1 4 0 200e1b410a04090e0a0a0a049d90");
    CHECK_LINE(0, hop, added_checksum);
    route_all(2, PLAIN_ASKS_HOP_COUNT);
    CHECK_LINE(0, afar, "0 0 1 4 4 200d1a610a04090e0a0a0a0440");
    CHECK_LINE(0, checksum, added_both);
    CHECK_LINE(0, hop, "0 0 1 4 0 200d1a610a04090e0a0a0a0404");
    route_all(2, PLAIN_ASKS_BOTH);
    CHECK_LINE(0, afar, added_both);
    CHECK_LINE(0, checksum, added_both);
    CHECK_LINE(0, hop, added_checksum);
    for (size_t at = 0; at < CODES; at++) {
        route_all(2, codes[at]);
        CHECK_LINE(0, both, "0 0 1 4 0 200f1b610a04090e0a0a0a0404996f");
    }
}

/* An element is added without a leg into another domain, and then one octet
 * stays one octet; and together with one. */
static void test_added_near_and_far(void)
{
    fresh_with_legs();
    route_all(1, PLAIN_ASKS_CHECKSUM);
    CHECK_LINE(0, to_14, "0 0 1 2 2 20081b400e04b6b3");
    route_all(1, PLAIN_ASKS_HOP_COUNT);
    CHECK_LINE(0, to_14, "0 0 1 2 2 20071a600e0440");
    route_all(1, PLAIN_ASKS_BOTH);
    CHECK_LINE(0, to_14, "0 0 1 2 2 20091b600e04407692");
    route_all(2, PLAIN_ASKS_CHECKSUM);
    CHECK_LINE(0, to_14, "0 0 1 4 4 200e1b410a0a0a0e0a0a0a049c8a");
    route_all(2, PLAIN_ASKS_HOP_COUNT);
    CHECK_LINE(0, to_14, "0 0 1 4 4 200d1a610a0a0a0e0a0a0a0440");
    route_all(2, PLAIN_ASKS_BOTH);
    CHECK_LINE(0, to_14, "0 0 1 4 4 200f1b610a0a0a0e0a0a0a04405c69");
    /* Widened, with one element there and one added. */
    CHECK_LINE(0, "20071a600e0405",
               "0 0 1 4 4 200f1b610a0a0a0e0a0a0a04049869");
}

static void test_route_to_the_arrival_port(void)
{
    fresh_with_legs();
    route_all(0, PLAIN_ASKS_BOTH);
    CHECK_LINE(0, to_14, "0 0 1 1 1 20091b600e04407692");
    CHECK_LINE(0, afar, "0 0 1 1 1 200f1b610a04090e0a0a0a04405d6f");
}

/* 10 is judged on what came; an added hop count is never used up here. */
static void test_hops(void)
{
    fresh_with_legs();
    for (uint32_t port = 1; port <= 2; port++) {
        route_all(port, PLAIN_ASKS_BOTH);
        CHECK_LINE(0, "20071a600e0400", "0 0 10 0 0");
        CHECK_LINE(0, "20071a600e0401", "0 0 10 0 0");
    }
    route_all(2, PLAIN_ASKS_HOP_COUNT);
    CHECK_LINE(0, "20071a600e0402", "0 0 1 4 4 200d1a610a0a0a0e0a0a0a0401");
    CHECK_LINE(0, "20071a600e04ff", "0 0 1 4 4 200d1a610a0a0a0e0a0a0a04fe");
    CHECK_COUNT(PLAIN_FORW_HOP_DISCARD, 4);
}

/* The route that the search took asks, not another one to the same port. */
static void test_the_route_that_was_taken(void)
{
    fresh_with_legs();
    CHECK_EQUAL(route(0, 0, 0, 2, PLAIN_ASKS_BOTH), 0);
    CHECK_EQUAL(route(1, 0x0a040900, net24, 2, PLAIN_ASKS_NOTHING), 0);
    CHECK_LINE(0, afar, "0 0 1 4 0 200c1a410a04090e0a0a0a04");
    CHECK_EQUAL(route(2, 0x0a04090e, 0xffffffff, 2, PLAIN_ASKS_HOP_COUNT), 0);
    CHECK_LINE(0, afar, "0 0 1 4 4 200d1a610a04090e0a0a0a0440");
    relay.records[2].availability = PLAIN_DOWN;
    CHECK_LINE(0, afar, "0 0 1 4 0 200c1a410a04090e0a0a0a04");
    /* 3 is no code: the record counts as empty. */
    relay.records[2].availability = PLAIN_UP;
    relay.records[2].capabilities = 3;
    CHECK_LINE(0, afar, "0 0 1 4 0 200c1a410a04090e0a0a0a04");
    /* A broadcast that is not ours takes a route, and has one. */
    CHECK_EQUAL(route(1, 0x0a040900, net24, 2, PLAIN_ASKS_HOP_COUNT), 0);
    CHECK_LINE(0, "200c1a410a0409ff0a0a0a04",
               "0 0 1 4 4 200d1a610a0409ff0a0a0a0440");
}

/* Copies without a route get no elements, whatever the routes ask for. */
static void test_copies_without_a_route(void)
{
    fresh_with_legs();
    route_all(2, PLAIN_ASKS_BOTH);
    CHECK_EQUAL(set_group(0, 0x0a0a0a0f, 0xf, 0), 0);
    CHECK_EQUAL(set_path(0, 0x0a0a0a10, 0xf, 0), 0);
    CHECK_LINE(0, to_all,
               "0 1 1 14 12 20061a40ff04,200c1a410a0a0aff0a0a0a04,"
               "200c1a410a0a0aff0a0a0a04");
    CHECK_LINE(0, "200c1a410a0a0aff0a0a0a04",
               "0 1 1 14 0 200c1a410a0a0aff0a0a0a04,"
               "200c1a410a0a0aff0a0a0a04,200c1a410a0a0aff0a0a0a04");
    CHECK_LINE(0, "20061a400f04",
               "0 0 1 14 12 20061a400f04,200c1a410a0a0a0f0a0a0a04,"
               "200c1a410a0a0a0f0a0a0a04");
    CHECK_LINE(0, "20081a010a0a0a10",
               "0 0 1 14 0 20081a010a0a0a10,20081a010a0a0a10,"
               "20081a010a0a0a10");
}

/* Both forms at once, the elements that came in both. */
static void test_two_forms(void)
{
    plain_verdict verdict;

    fresh_with_legs();
    CHECK_LINE(0, "20091b60ff0409bc91",
               "0 1 1 14 12 20091b60ff0408bd91,"
               "200f1b610a0a0aff0a0a0a04089378,"
               "200f1b610a0a0aff0a0a0a04089378");
    /* From the other side all others are far. */
    CHECK_LINE(2, to_all,
               "0 1 1 11 11 200c1a410a0a0bff0a0a0b04,"
               "200c1a410a0a0bff0a0a0b04,200c1a410a0a0bff0a0a0b04");
    verdict = arrive(0, to_all);
    CHECK_EQUAL(verdict.arriving_octets, 6);
    CHECK_EQUAL(verdict.rewritten_octets, 12);
    CHECK_EQUAL(plain_header_octets(&verdict, 0), 0);
    CHECK_EQUAL(plain_header_octets(&verdict, 1), 6);
    CHECK_EQUAL(plain_header_octets(&verdict, 3), 12);
    CHECK_EQUAL(plain_header_octets(&verdict, 8), 0);
}

/* Each port in its turn of either form, the last one too. */
static void test_eight_ports(void)
{
    fresh_router();
    for (uint32_t port = 1; port < PLAIN_PORTS; port++)
        CHECK_EQUAL(set_port(port, HERE + (port % 2 << 8), net24, 8191), 0);
    CHECK_LINE(2, to_all,
               "0 1 1 251 170 20061a40ff04,200c1a410a0a0aff0a0a0a04,"
               "200c1a410a0a0aff0a0a0a04,20061a40ff04,"
               "200c1a410a0a0aff0a0a0a04,20061a40ff04,"
               "200c1a410a0a0aff0a0a0a04");
    CHECK_LINE(3, to_all,
               "0 1 1 247 85 200c1a410a0a0bff0a0a0b04,20061a40ff04,"
               "200c1a410a0a0bff0a0a0b04,200c1a410a0a0bff0a0a0b04,"
               "20061a40ff04,200c1a410a0a0bff0a0a0b04,20061a40ff04");
}

/* One-octet 255 is the broadcast of all SCPS on both sides. */
static void test_all_scps(void)
{
    fresh_with_legs();
    CHECK_EQUAL(set_port(4, 0x0affff02, net24, 8191), 0);
    CHECK_EQUAL(set_port(5, 0x0affff06, net24, 8191), 0);
    CHECK_LINE(4, to_all,
               "0 1 1 47 15 200c1a410affffff0affff04,"
               "200c1a410affffff0affff04,200c1a410affffff0affff04,"
               "200c1a410affffff0affff04,20061a40ff04");
}

/* A one-octet path is never widened; 13 comes after 10 and before 14. */
static void test_paths(void)
{
    fresh_router();
    CHECK_EQUAL(set_port(1, NEAR, net24, 8191), 0);
    CHECK_EQUAL(set_port(2, FAR, net24, 3), 0);
    route_all(1, PLAIN_ASKS_BOTH);
    CHECK_EQUAL(set_path(0, 0x0a0a0a10, 4, 0), 0);
    CHECK_LINE(0, "20041210", "0 0 13 0 0");
    CHECK_LINE(0, "20061a201001", "0 0 10 0 0");
    CHECK_LINE(0, "20081a010a0a0a10", "0 0 14 0 0");
    CHECK_EQUAL(set_path(0, 0x0a0a0a10, 6, 0), 0);
    CHECK_LINE(0, "20041210", "0 0 1 2 0 20041210");
    CHECK_LINE(0, "20051a0010", "0 0 1 2 0 20051a0010");
    CHECK_COUNT(PLAIN_LEFT_DOMAIN, 1);
    CHECK_COUNT(PLAIN_TOO_BIG_COUNT, 1);
}

/* The size after the rewrite, here of 15 octets and 100 of data, is the one
 * that the MTU must hold. */
static void test_size_of_one_leg(void)
{
    fresh_router();
    CHECK_EQUAL(set_port(1, FAR, net24, 114), 0);
    CHECK_EQUAL(set_port(2, FAR, net24, 115), 0);
    route_all(1, PLAIN_ASKS_BOTH);
    CHECK_LINE(0, "206a1a400e04", "0 0 14 0 0");
    CHECK_EQUAL(arrive(0, "206a1a400e04").arriving_octets, 6);
    CHECK_LINE(0, "20691a400e04",
               "0 0 1 2 2 20721b610a0a0a0e0a0a0a04405c06");
    route_all(2, PLAIN_ASKS_BOTH);
    CHECK_LINE(0, "206a1a400e04",
               "0 0 1 4 4 20731b610a0a0a0e0a0a0a04405c05");
    CHECK_LINE(0, "206b1a400e04", "0 0 14 0 0");
    CHECK_COUNT(PLAIN_TOO_BIG_COUNT, 3);
    CHECK_COUNT(PLAIN_FORW_DATAGRAMS, 2);
}

/* Each port by its own header: 6 octets near, 12 far, and 10 of data. */
static void test_size_of_each_leg(void)
{
    fresh_router();
    CHECK_EQUAL(set_port(1, NEAR, net24, 15), 0);
    CHECK_EQUAL(set_port(2, NEAR, net24, 16), 0);
    CHECK_EQUAL(set_port(3, FAR, net24, 21), 0);
    CHECK_LINE(0, "20101a40ff04", "0 1 1 4 0 20101a40ff04");
    CHECK_EQUAL(set_port(4, FAR, net24, 22), 0);
    CHECK_LINE(0, "20101a40ff04",
               "0 1 1 20 16 20101a40ff04,20161a410a0a0aff0a0a0a04");
    CHECK_LINE(0, "20111a40ff04", "0 1 14 0 0");
    CHECK_LINE(0, "200f1a40ff04",
               "0 1 1 30 24 200f1a40ff04,200f1a40ff04,"
               "20151a410a0a0aff0a0a0a04,20151a410a0a0aff0a0a0a04");
    CHECK_COUNT(PLAIN_TOO_BIG_COUNT, 1);
}

/* More data than the builder takes: 8,177 octets behind a header of 14. */
static void test_longest(void)
{
    fresh_with_legs();
    route_all(2, PLAIN_ASKS_CHECKSUM);
    CHECK_LINE(0, "3ff71a400e04",
               "0 0 1 4 4 3fff1b410a0a0a0e0a0a0a047c99");
    CHECK_LINE(0, "3ff81a400e04", "0 0 14 0 0");
    CHECK_LINE(0, "3ffd1a410a04090e0a0a0a04",
               "0 0 1 4 4 3fff1b410a04090e0a0a0a047d9f");
    CHECK_LINE(0, "3ffe1a410a04090e0a0a0a04", "0 0 14 0 0");
    route_all(2, PLAIN_ASKS_NOTHING);
    CHECK_LINE(0, "3fff1a410a04090e0a0a0a04",
               "0 0 1 4 0 3fff1a410a04090e0a0a0a04");
    /* Where nothing but a hop count is added, one octet decides. */
    route_all(1, PLAIN_ASKS_HOP_COUNT);
    CHECK_LINE(0, "3ffe1a400e04", "0 0 1 2 2 3fff1a600e0440");
    CHECK_LINE(0, "3fff1a400e04", "0 0 14 0 0");
    CHECK_COUNT(PLAIN_TOO_BIG_COUNT, 3);
}

/* A control field of three octets, the last of no use: kept as it came, and
 * two octets when written anew. */
static void test_shortest_control_field(void)
{
    fresh_with_legs();
    route_all(1, PLAIN_ASKS_NOTHING);
    CHECK_LINE(0, "20071ac0000e04", "0 0 1 2 0 20071ac0000e04");
    route_all(2, PLAIN_ASKS_NOTHING);
    CHECK_LINE(0, "20071ac0000e04", "0 0 1 4 4 200c1a410a0a0a0e0a0a0a04");
    route_all(1, PLAIN_ASKS_CHECKSUM);
    CHECK_LINE(0, "20071ac0000e04", "0 0 1 2 2 20081b400e04b6b3");
    /* As long as before, though a hop count came in. */
    route_all(1, PLAIN_ASKS_HOP_COUNT);
    CHECK_LINE(0, "20071ac0000e04", "0 0 1 2 2 20071a600e0440");
    CHECK_LINE(0, "3fff1ac0000e04", "0 0 1 2 2 3fff1a600e0440");
    /* With a hop count of its own it lacks nothing, and is kept. */
    CHECK_LINE(0, "20081ae0000e0405", "0 0 1 2 0 20081ae0000e0404");
}

/* No element is lost or changed: basic and expanded QOS, intermediate delivery
 * and each form of the timestamp. */
static void test_other_elements(void)
{
    static const char all[] = "20141ad2300e04932f0102030405060777";

    fresh_with_legs();
    route_all(2, PLAIN_ASKS_BOTH);
    CHECK_LINE(0, all,
               "0 1 1 4 4 201d1bf3300a0a0a0e0a0a0a0493402f0102030405060777"
               "1c82");
    route_all(1, PLAIN_ASKS_BOTH);
    CHECK_LINE(0, all, "0 1 1 2 2 20171bf2300e0493402f01020304050607773ea3");
    route_all(2, PLAIN_ASKS_NOTHING);
    CHECK_LINE(0, "20091a480e04010203",
               "0 0 1 4 4 200f1a490a0a0a0e0a0a0a04010203");
    CHECK_LINE(0, "200a1a580e0401020304",
               "0 0 1 4 4 20101a590a0a0a0e0a0a0a0401020304");
}

/* Only a port that took an entry has a header, and is named. */
static void test_dropped_copies(void)
{
    plain_verdict verdict;

    fresh_router();
    CHECK_EQUAL(set_port(1, NEAR, net24, 8191), 0);
    CHECK_EQUAL(set_port(2, FAR, net24, 8191), 0);
    route_all(2, 0);
    for (unsigned round = 0; round < PLAIN_QUEUE_ENTRIES; round++)
        arrive(0, to_14);
    CHECK_LINE(0, to_all, "0 1 1 2 0 20061a40ff04");
    verdict = arrive(0, to_all);
    CHECK_EQUAL(verdict.dropped.bits, 4);
    CHECK_EQUAL(verdict.rewritten_octets, 0);
    for (unsigned round = 2; round < PLAIN_QUEUE_ENTRIES; round++)
        arrive(0, to_all);
    verdict = arrive(0, to_all);
    CHECK_EQUAL(verdict.onward, PLAIN_ALL_FULL);
    CHECK_EQUAL(verdict.took.bits, 0);
    CHECK_EQUAL(verdict.dropped.bits, 6);
    CHECK_EQUAL(verdict.rewritten.bits, 0);
    CHECK_EQUAL(verdict.rewritten_octets, 0);
    CHECK_EQUAL(verdict.arriving_octets, 6);
}

static void test_room(void)
{
    plain_slot slot = {1};
    plain_verdict verdict;

    fresh_router();
    arrive(0, to_14); /* puts the octets that are lent below */
    lend_output();
    verdict = plain_receive(&view, 0, slot, 0, octets, 6, output, 399);
    CHECK_EQUAL(verdict.refusal, PLAIN_NO_ROOM);
    CHECK_EQUAL(verdict.arriving_octets, 0);
    check_the_rest(&verdict);
    verdict = plain_receive(&view, 0, slot, 0, octets, 6, output, 400);
    CHECK_EQUAL(verdict.refusal, PLAIN_GOOD);
    verdict = plain_receive(&view, 0, slot, 0, octets, 6, output, 401);
    CHECK_EQUAL(verdict.refusal, PLAIN_GOOD);
    CHECK_COUNT(PLAIN_IN_RECEIVES, 3);
}

/* One of the headers that 10.10.10.4 may send to 10.10.10.14, by the bits of a
 * number. */
static plain_fields form(uint32_t number)
{
    plain_fields fields = {.tp_id = 6, .source_present = 1};
    uint32_t domain = number & 1 ? 0x0a0a0a00 : 0;

    fields.extended = number & 1;
    fields.destination.low = domain | 0x0e;
    fields.source.low = domain | 0x04;
    fields.basic_qos_present = number >> 1 & 1;
    fields.precedence = fields.basic_qos_present ? 13 : 0;
    fields.hop_present = number >> 2 & 1;
    fields.hop = fields.hop_present ? 2 + number / 2 : 0;
    fields.expanded_present = number >> 3 & 1;
    fields.expanded = fields.expanded_present ? 0x5a : 0;
    fields.checksum_present = number >> 4 & 1;
    fields.intermediate = number >> 5 & 1;
    fields.stamp_format = number >> 6 & 3;
    fields.p_field = fields.stamp_format == PLAIN_STAMP_EXPLICIT ? 0x15 : 0;
    fields.time = fields.stamp_format == PLAIN_STAMP_NONE ? 0 : 0x010203;
    return fields;
}

/* Answers whether the header is to be rewritten, and makes of its fields those
 * that go out. */
static bool change(plain_fields *fields, bool into_another, uint32_t code)
{
    bool widened = into_another && !fields->extended;
    bool hop = !fields->hop_present && (code == 2 || code == 4);
    bool checksum = !fields->checksum_present && (code == 1 || code == 4);

    if (widened) {
        fields->extended = 1;
        fields->destination.low = 0x0a0a0a0e;
        fields->source.low = 0x0a0a0a04;
    }
    fields->hop = fields->hop_present ? fields->hop - 1 : hop ? 64 : 0;
    fields->hop_present |= hop;
    fields->checksum_present |= checksum;
    return widened || hop || checksum;
}

static void check_form(plain_fields fields, uint32_t port, uint32_t code)
{
    enum { DATA = 7 };
    uint8_t due[PLAIN_HEADER_MOST];
    uint32_t built = 0;
    plain_verdict verdict;
    plain_entry entry;
    bool rewritten;

    CHECK_EQUAL(plain_header_build(&fields, DATA, octets, sizeof octets,
                                   &built), 0);
    verdict = receive(0, 1, built + DATA);
    CHECK_EQUAL(verdict.took.bits, 1u << port);
    CHECK_EQUAL(verdict.arriving_octets, built);
    rewritten = change(&fields, port == 2, code);
    CHECK_EQUAL(verdict.rewritten.bits, rewritten ? 1u << port : 0);
    CHECK_EQUAL(plain_header_build(&fields, DATA, due, sizeof due, &built), 0);
    CHECK_EQUAL(plain_header_octets(&verdict, port), built);
    CHECK_EQUAL(memcmp(output + plain_header_at(port), due, built), 0);
    CHECK_EQUAL(plain_take(&view, port, &entry), 0);
}

/* Every form, by every code, within the domain and out of it: the builder,
 * given the fields with the changes that are due, makes the header that went
 * out. */
static void test_every_form(void)
{
    fresh_with_legs();
    for (uint32_t port = 1; port <= 2; port++) {
        for (size_t at = 0; at < CODES; at++) {
            route_all(port, codes[at]);
            for (uint32_t number = 0; number < 256; number++)
                check_form(form(number), port, codes[at]);
        }
    }
}

int main(void)
{
    test_widened();
    test_domains();
    test_widened_with_elements();
    test_elements_added();
    test_added_near_and_far();
    test_route_to_the_arrival_port();
    test_hops();
    test_the_route_that_was_taken();
    test_copies_without_a_route();
    test_two_forms();
    test_eight_ports();
    test_all_scps();
    test_paths();
    test_size_of_one_leg();
    test_size_of_each_leg();
    test_longest();
    test_shortest_control_field();
    test_other_elements();
    test_dropped_copies();
    test_room();
    test_every_form();
    return checks_report("test_legs");
}
