/*
 * relay_calls.c: what a C program can ask of a relay and no trace can say:
 * words of the wrong number, null pointers, the settings as they stand, the
 * parts of what a search found, the ports that dropped a copy, words compared
 * one by one. The headers of copies are for leg_calls.c.
 */
#include <stdbool.h>
#include <string.h>

#include "expect.h"
#include "harpjuniper.h"

#define UNTOUCHED 0xa5a5a5a5u
#define MASK_24 0xffffff00u

/* A good datagram to 192.0.9.1, and one to the group 224.0.0.1. */
static const uint8_t routed[] = {0x20, 12, 0x1a, 0x41, 192, 0, 9, 1,
                                 10,   10, 0,    4};
static const uint8_t grouped[] = {0x20, 12, 0x1a, 0x41, 224, 0, 0, 1,
                                  10,   10, 0,    4};

/* All that lasts, with a word behind each. */
struct relay {
    hj_board board;
    uint32_t after_board;
    hj_mission mission;
    uint32_t after_mission;
    hj_record routes[HJ_ROUTES + 1];
};

static struct relay relay, other;
static uint8_t output[HJ_OUTPUT_ROOM];

#define BOARD &relay.board, HJ_BOARD_WORDS
#define MISSION &relay.mission, HJ_MISSION_WORDS
#define ROUTES relay.routes, HJ_ROUTES

/* A router with three ports, a route, a group and a path of mission 0, and a
 * port of mission 1. */
static void set_up(void)
{
    uint32_t refused = hj_fresh_board(BOARD) | hj_fresh_mission(MISSION, 0);

    memset(relay.routes, 0, sizeof relay.routes);
    relay.after_board = relay.after_mission = UNTOUCHED;
    refused |= hj_set_router(BOARD, 1);
    refused |= hj_set_port(BOARD, 0, 0x0a0a0002, MASK_24, 8191, 0);
    refused |= hj_set_port(BOARD, 1, 0x0a0a0102, MASK_24, 8190, 0);
    refused |= hj_set_port(BOARD, 4, 0xac100401, MASK_24, 576, 1);
    refused |= hj_set_port(BOARD, 7, 0xc0000201, 0xfffffffc, 1500, 0);
    refused |= hj_set_route(BOARD, ROUTES, 511, 0xc0000000, 0xff000000, 1,
                            HJ_UP, HJ_CAPABLE_BOTH, 0);
    refused |= hj_set_group(BOARD, MISSION, 15, 0xe0000001, 0x82, 1);
    refused |= hj_set_path(BOARD, MISSION, 14, 0x0a0a00ff, 0x80, 1);
    expect(refused == HJ_DONE, "setting up");
}

static bool unchanged(void)
{
    return memcmp(&relay, &other, sizeof relay) == 0;
}

static hj_verdict receive(const uint8_t *octets, uint16_t slot)
{
    hj_arrival arrival = {0, slot, 0};

    return hj_receive(BOARD, MISSION, ROUTES, arrival, octets, sizeof routed,
                      output, sizeof output);
}

static uint32_t counter(uint32_t which)
{
    return hj_value(hj_counter(MISSION, which));
}

/* ---- Words of the wrong number ------------------------------------------- */

static bool all_zero(const void *words, size_t octets)
{
    const uint8_t *at = (const uint8_t *)words;

    while (octets > 0 && *at == 0) {
        at++;
        octets--;
    }
    return octets == 0;
}

/* The board, of so many words, with a good mission. */
static void refuse_board(hj_board *board, size_t words)
{
    expect(hj_fresh_board(board, words) == 21, "fresh_board");
    expect(hj_set_router(board, words, 1) == 21, "set_router");
    expect(hj_set_router(board, words, 2) == 21, "set_router, 21 before 24");
    expect(hj_set_lifetime(board, words, 1) == 21, "set_lifetime");
    expect(hj_set_port(board, words, 2, 0x0a0a0002, MASK_24, 1, 0) == 21,
           "set_port");
    expect(hj_set_route(board, words, ROUTES, 0, 0, 0, 0, 1, 0, 0) == 21,
           "set_route");
    expect(hj_get_router(board, words) == (hj_answer)21 << 32, "get_router");
    expect(hj_get_lifetime(board, words) == (hj_answer)21 << 32,
           "get_lifetime");
    expect(hj_port_word(board, words, 0, 0) == (hj_answer)21 << 32,
           "port_word");
    expect(hj_get_port(board, words, 0).refusal == 21, "get_port");
}

/* A mission's state, of so many words. */
static void refuse_mission(hj_mission *mission, size_t words)
{
    const hj_answer refused = (hj_answer)21 << 32;
    hj_group group = hj_get_group(mission, words, 0);
    hj_path_place path = hj_get_path(mission, words, 0);
    hj_pair pair = hj_get_pair(mission, words, 0);

    expect(hj_fresh_mission(mission, words, 0) == 21, "fresh_mission");
    expect(hj_fresh_mission(mission, words, 2) == 21, "21 before 24");
    expect(hj_clear_group(mission, words, 0) == 21, "clear_group");
    expect(hj_clear_path(mission, words, 0) == 21, "clear_path");
    expect(hj_counter(mission, words, 0) == refused, "counter");
    expect(hj_waiting(mission, words, 0) == refused, "waiting");
    expect(hj_group_word(mission, words, 0, 0) == refused, "group_word");
    expect(hj_path_word(mission, words, 0, 0) == refused, "path_word");
    expect(hj_last_second(mission, words) == refused, "last_second");
    expect(hj_pair_word(mission, words, 0, 0) == refused, "pair_word");
    expect(pair.refusal == 21 && all_zero(&pair.format, sizeof pair - 4),
           "get_pair");
    expect(group.refusal == 21 && all_zero(&group.filled, sizeof group - 4),
           "get_group");
    expect(path.refusal == 21 && all_zero(&path.filled, sizeof path - 4),
           "get_path");
}

/* Both, of which one or the other is of the wrong number. */
static void refuse_both(hj_board *board, size_t board_words,
                        hj_mission *mission, size_t mission_words)
{
#define LENT board, board_words, mission, mission_words
    hj_arrival arrival = {0, 1, 0};

    expect(hj_set_group(LENT, 0, 0xe0000001, 0, 0) == 21, "set_group");
    expect(hj_set_path(LENT, 0, 0x0a0a0003, 0, 0) == 21, "set_path");
    expect(hj_search(LENT, ROUTES, 0xc0000901) == 21, "search");
    expect(hj_receive(LENT, ROUTES, arrival, routed, sizeof routed, output,
                      sizeof output) == 16,
           "receive");
    expect(hj_receive_at(LENT, NULL, 0, 0, 1, 0, NULL, 0, NULL, 0) == 16,
           "receive, 16 before 17");
    expect(hj_receive_at(LENT, relay.routes, HJ_ROUTES + 1, 0, 1, 0, NULL, 0,
                         NULL, 0) == 21,
           "receive, 21 of the list before 16");
    expect(hj_sweep(LENT, UINT32_MAX) == 21, "sweep");
    expect(hj_take(LENT, 0) == (hj_answer)16 << 32, "take");
}

static void check_words(void)
{
    static const size_t BOARDS[] = {0, 1, HJ_BOARD_WORDS - 1,
                                    HJ_BOARD_WORDS + 1};
    static const size_t MISSIONS[] = {0, 1, HJ_MISSION_WORDS - 1,
                                      HJ_MISSION_WORDS + 1};

    expect(hj_board_words() == HJ_BOARD_WORDS, "board_words");
    expect(hj_mission_words() == HJ_MISSION_WORDS, "mission_words");
    set_up();
    other = relay;
    for (size_t i = 0; i < sizeof BOARDS / sizeof *BOARDS; i++) {
        refuse_board(&relay.board, BOARDS[i]);
        refuse_mission(&relay.mission, MISSIONS[i]);
        refuse_both(&relay.board, BOARDS[i], MISSION);
        refuse_both(BOARD, &relay.mission, MISSIONS[i]);
    }
    refuse_board(NULL, 0);
    refuse_mission(NULL, 0);
    refuse_both(NULL, 0, NULL, 0);
    expect(unchanged(), "nothing is written");
}

/* ---- Lists of every length ----------------------------------------------- */

static void check_too_long(void)
{
    hj_arrival arrival = {0, 1, 0};
    const size_t count = HJ_ROUTES + 1;

    set_up();
    other = relay;
    expect(hj_set_route(BOARD, relay.routes, count, 0, 0, 0, 0, HJ_UP, 0,
                        0) == 21,
           "set_route, 513 records");
    expect(hj_clear_route(relay.routes, count, 0) == 21,
           "clear_route, 513 records");
    expect(hj_search(BOARD, MISSION, relay.routes, count, 0) == 21,
           "search, 513 records");
    expect(hj_receive(BOARD, MISSION, relay.routes, count, arrival, routed,
                      sizeof routed, output, sizeof output) == 21,
           "receive, 513 records");
    expect(hj_route_word(relay.routes, count, 0, 0) == (hj_answer)21 << 32 &&
               hj_get_route(relay.routes, count, 0).refusal == 21,
           "route_word and get_route, 513 records");
    expect(unchanged(), "nothing is written, and nothing counted");
}

static void check_short(void)
{
    hj_arrival arrival = {0, 1, 0};
    hj_verdict verdict;

    set_up();
    expect(hj_search(BOARD, MISSION, relay.routes, 511, 0xc0000901) == 0,
           "the last place is beyond the end");
    expect(hj_set_route(BOARD, relay.routes, 3, 3, 0, 0, 0, HJ_UP, 0, 0) == 21,
           "set_route beyond the end");
    expect(hj_clear_route(relay.routes, 3, 3) == 21,
           "clear_route beyond the end");
    expect(hj_get_route(relay.routes, 3, 3).refusal == 21,
           "get_route beyond the end");
    expect(hj_search(BOARD, MISSION, NULL, 0, 0xc0000901) == 0, "no list");
    verdict = hj_receive(BOARD, MISSION, NULL, 0, arrival, routed,
                         sizeof routed, output, sizeof output);
    expect(hj_onward(verdict) == HJ_NO_ROUTE, "receiving without a list");
}

/* ---- Fresh, and equal settings are equal words --------------------------- */

static void check_fresh(void)
{
    memset(&relay, 0xa5, sizeof relay);
    memset(&other, 0, sizeof other);
    other.mission.words[0] = 1;
    expect(hj_fresh_board(BOARD) == 0 && hj_fresh_mission(MISSION, 1) == 0,
           "fresh");
    expect(memcmp(&relay.board, &other.board, sizeof other.board) == 0 &&
               memcmp(&relay.mission, &other.mission,
                      sizeof other.mission) == 0,
           "fresh from any words");
    expect(relay.after_board == UNTOUCHED && relay.after_mission == UNTOUCHED,
           "fresh writes its words alone");
    other = relay;
    expect(hj_fresh_mission(MISSION, 2) == 24 &&
               hj_fresh_mission(MISSION, UINT32_MAX) == 24 && unchanged(),
           "there are two missions");
    for (uint32_t i = 0; i < HJ_COUNTERS; i++)
        expect(hj_counter(MISSION, i) == 0, "a fresh counter");
    for (uint32_t i = 0; i < HJ_PORTS; i++)
        expect(hj_waiting(MISSION, i) == 0, "a fresh queue");
    expect(hj_get_router(BOARD) == 0, "a host at first");
    expect(hj_get_lifetime(BOARD) == 0 && hj_last_second(MISSION) == 0,
           "lifetime and last second 0");
    for (uint32_t i = 0; i < HJ_PAIRS; i++) {
        hj_pair pair = hj_get_pair(MISSION, i);

        expect(all_zero(&pair, sizeof pair), "a free place");
    }
}

static void check_cleared(void)
{
    set_up();
    other = relay;
    expect(hj_set_route(BOARD, ROUTES, 5, 0, 0, 0, HJ_UP, 0, 0) == 0 &&
               hj_set_group(BOARD, MISSION, 5, 0xe0000005, 1, 1) == 0 &&
               hj_set_path(BOARD, MISSION, 5, 0x0a0a0005, 1, 1) == 0,
           "three places filled");
    expect(!unchanged(), "another relay");
    expect(hj_clear_route(ROUTES, 5) == 0 && hj_clear_group(MISSION, 5) == 0 &&
               hj_clear_path(MISSION, 5) == 0,
           "emptied again");
    expect(unchanged(), "the same relay again");
}

/* ---- The settings as they stand ------------------------------------------ */

static void check_ports(void)
{
    const uint32_t words[] = {1, 0xac100401, MASK_24, 576, 1};
    hj_port port = hj_get_port(BOARD, 4);

    expect(port.refusal == 0, "get_port");
    expect(port.ready == words[0], "get_port, ready");
    expect(port.address == words[1], "get_port, address");
    expect(port.mask == words[2], "get_port, mask");
    expect(port.mtu == words[3], "get_port, mtu");
    expect(port.mission == words[4], "get_port, mission");
    for (uint32_t i = 0; i < HJ_PORT_NUMBERS; i++)
        expect(hj_port_word(BOARD, 4, i) == words[i], "port_word");
    port = hj_get_port(BOARD, 2);
    expect(all_zero(&port, sizeof port), "get_port, not set up");
    expect(hj_get_port(BOARD, 8).refusal == 21, "get_port 8");
    expect(hj_refusal(hj_port_word(BOARD, 4, HJ_PORT_NUMBERS)) == 21 &&
               hj_refusal(hj_port_word(BOARD, 4, UINT32_MAX)) == 21,
           "port_word 5");
    expect(hj_set_port(BOARD, 4, 0xac100401, MASK_24, 576, 1) == 35 &&
               hj_set_port(BOARD, 4, 0xac100401, MASK_24, 576, 2) == 24,
           "a port is written once, and 24 comes before 35");
}

static void check_route(void)
{
    const hj_record record = {1, 0xc0000000, 0xff000000, 1, HJ_UP,
                              HJ_CAPABLE_BOTH, 0};
    hj_route route = hj_get_route(ROUTES, 511);

    expect(memcmp(&relay.routes[511], &record, sizeof record) == 0,
           "the record that set_route wrote");
    relay.routes[511].mission = 77;
    route = hj_get_route(ROUTES, 511);
    expect(route.refusal == 0, "get_route");
    expect(route.filled == 1, "get_route, filled");
    expect(route.prefix == 0xc0000000, "get_route, prefix");
    expect(route.mask == 0xff000000, "get_route, mask");
    expect(route.port == 1, "get_route, port");
    expect(route.availability == HJ_UP, "get_route, availability");
    expect(route.capabilities == HJ_CAPABLE_BOTH, "get_route, capabilities");
    expect(route.mission == 77, "get_route, mission, as it stands");
    for (uint32_t i = 0; i < HJ_ROUTE_NUMBERS; i++)
        expect(hj_route_word(ROUTES, 511, i) ==
                   ((const uint32_t *)&relay.routes[511])[i],
               "route_word");
    expect(hj_refusal(hj_route_word(ROUTES, 511, HJ_ROUTE_NUMBERS)) == 21,
           "route_word 7");
    relay.routes[511] = record;
}

static void check_places(void)
{
    const uint32_t groups[] = {1, 0xe0000001, 0x82, 1};
    const uint32_t paths[] = {1, 0x0a0a00ff, 0x80, 1};
    hj_group group = hj_get_group(MISSION, 15);
    hj_path_place path = hj_get_path(MISSION, 14);

    expect(group.refusal == 0 && group.filled == 1, "get_group");
    expect(group.address == 0xe0000001, "get_group, address");
    expect(group.send == 0x82, "get_group, send");
    expect(group.subscribed == 1, "get_group, subscribed");
    expect(path.refusal == 0 && path.filled == 1, "get_path");
    expect(path.path == 0x0a0a00ff, "get_path, path");
    expect(path.send == 0x80, "get_path, send");
    expect(path.here == 1, "get_path, here");
    for (uint32_t i = 0; i < HJ_GROUP_NUMBERS; i++)
        expect(hj_group_word(MISSION, 15, i) == groups[i] &&
                   hj_path_word(MISSION, 14, i) == paths[i],
               "group_word and path_word");
    expect(hj_refusal(hj_group_word(MISSION, 15, HJ_GROUP_NUMBERS)) == 21 &&
               hj_refusal(hj_path_word(MISSION, 14, HJ_PATH_NUMBERS)) == 21,
           "group_word and path_word 4");
}

static void check_empty_places(void)
{
    hj_route route = hj_get_route(ROUTES, 0);
    hj_group group = hj_get_group(MISSION, 0);
    hj_path_place path = hj_get_path(MISSION, 0);

    expect(all_zero(&route, sizeof route), "get_route, empty");
    expect(all_zero(&group, sizeof group), "get_group, empty");
    expect(all_zero(&path, sizeof path), "get_path, empty");
    expect(hj_get_route(ROUTES, 512).refusal == 21, "get_route 512");
    expect(hj_get_group(MISSION, 16).refusal == 21, "get_group 16");
    expect(hj_get_path(MISSION, 16).refusal == 21, "get_path 16");
    expect(hj_get_router(BOARD) == 1, "get_router");
    expect(hj_refusal(hj_counter(MISSION, HJ_COUNTERS)) == 21, "counter 17");
    expect(hj_refusal(hj_waiting(MISSION, HJ_PORTS)) == 21, "waiting 8");
}

/* ---- The route that an address takes ------------------------------------- */

static void expect_found(uint32_t address, uint32_t place, uint32_t ones,
                         uint32_t port, const char *what)
{
    hj_found found = hj_search(BOARD, MISSION, ROUTES, address);

    expect(hj_found_refusal(found) == HJ_DONE && hj_is_found(found) == 1,
           what);
    expect(hj_found_place(found) == place, what);
    expect(hj_found_ones(found) == ones, what);
    expect(hj_found_port(found) == port, what);
    expect(found >> 48 == 0, what);
}

static void add_routes(void)
{
    expect(hj_set_route(BOARD, ROUTES, 0, 0, 0, 0, HJ_UP, 0, 0) == 0 &&
               hj_set_route(BOARD, ROUTES, 9, 0xc0000900, MASK_24, 7, HJ_UP,
                            HJ_CAPABLE_NONE, 0) == 0 &&
               hj_set_route(BOARD, ROUTES, 40, 0xc0000901, 0xffffffff, 7,
                            HJ_UP, HJ_CAPABLE_NONE, 0) == 0,
           "three routes more");
}

static hj_found search(uint32_t address)
{
    return hj_search(BOARD, MISSION, ROUTES, address);
}

static void check_search(void)
{
    set_up();
    expect(search(0xc1000901) == 0, "no route for it");
    expect(search(0) == 0, "none for 0.0.0.0");
    expect_found(0xc0ffffff, 511, 8, 1, "the last place");
    add_routes();
    other = relay;
    expect_found(0xc1000901, 0, 0, 0, "0 ones at place 0 is not no");
    expect_found(0xc0000801, 511, 8, 1, "the longest of two");
    expect_found(0xc0000902, 9, 24, 7, "the longest of three");
    expect_found(0xc0000901, 40, 32, 7, "the longest of four");
    expect_found(0x0a0a0002, 0, 0, 0, "a port's address is asked for too");
    expect_found(0xffffffff, 0, 0, 0, "so is a broadcast");
    expect(unchanged(), "nothing is changed");
    relay.routes[40].filled = UINT32_MAX;
    expect_found(0xc0000901, 40, 32, 7, "any number but 0 is filled");
    relay.routes[40].mission = 2;
    expect_found(0xc0000901, 9, 24, 7, "a record of no mission is refused");
    relay.routes[40].mission = 0;
    relay.routes[40].port = 256 + 7;
    expect_found(0xc0000901, 9, 24, 7, "so is one of no port");
}

/* The second mission sees its own route alone, with the same words lent. */
static void check_missions(void)
{
    static hj_mission second;
    hj_found found;

    set_up();
    add_routes();
    expect(hj_fresh_mission(&second, HJ_MISSION_WORDS, 1) == 0, "the second");
    expect(hj_set_route(BOARD, ROUTES, 41, 0xc0000901, 0xffffffff, 4, HJ_UP,
                        HJ_CAPABLE_NONE, 1) == 0,
           "the same prefix and mask, another mission");
    found = hj_search(BOARD, &second, HJ_MISSION_WORDS, ROUTES, 0xc0000901);
    expect(hj_is_found(found) && hj_found_place(found) == 41 &&
               hj_found_port(found) == 4,
           "its own route");
    expect(hj_search(BOARD, &second, HJ_MISSION_WORDS, ROUTES, 0xc0000902) ==
               0,
           "and no other");
    expect_found(0xc0000901, 40, 32, 7, "the first mission's is another");
    expect(hj_refusal(hj_take(BOARD, &second, HJ_MISSION_WORDS, 0)) == 16 &&
               hj_refusal(hj_take(BOARD, MISSION, 4)) == 16,
           "the other's port");
}

/* A route that is not up is passed over, by the verdict too. */
static void check_search_not_up(void)
{
    set_up();
    add_routes();
    for (uint32_t code = HJ_DOWN; code <= HJ_OUT; code++) {
        expect(hj_set_route(BOARD, ROUTES, 40, 0xc0000901, 0xffffffff, 1,
                            code, HJ_CAPABLE_NONE, 0) == 0,
               "a route that is not up");
        expect_found(0xc0000901, 9, 24, 7, "the next longest is found");
        expect(hj_took(receive(routed, 1)) == 0x80, "and taken");
    }
}

/* No route that is up matches, and one that is down does. */
static void check_none_up(void)
{
    set_up();
    expect(hj_set_route(BOARD, ROUTES, 511, 0xc0000000, 0xff000000, 1,
                        HJ_DOWN, HJ_CAPABLE_BOTH, 0) == 0,
           "the only route is down");
    expect(search(0xc0000901) == 0, "none is found");
    expect(hj_onward(receive(routed, 1)) == HJ_NO_ROUTE, "11, and not 12");
    expect(counter(HJ_OUT_NO_ROUTES) == 1, "which counts one");
    expect(hj_set_route(BOARD, ROUTES, 0, 0xc0000000, 0xff000000, 1, HJ_UP,
                        HJ_CAPABLE_NONE, 0) == HJ_SAME_ENTRY,
           "the same entry elsewhere, though it is down");
}

/* ---- Datagrams ----------------------------------------------------------- */

static void check_null(void)
{
    hj_arrival arrival = {0, 1, 0};

    set_up();
    expect(hj_ended_by(hj_receive(BOARD, MISSION, ROUTES, arrival, NULL, 0,
                                  output, sizeof output)) == HJ_SHORT,
           "receiving no octets");
    expect(hj_receive(BOARD, MISSION, ROUTES, arrival, NULL, 0, NULL, 0) ==
               HJ_SHORT_OUTPUT,
           "receiving without an output");
    expect(counter(HJ_IN_RECEIVES) == 1 && counter(HJ_IN_BAD_LENGTH) == 1,
           "no octets count one receipt");
}

static void check_pair_words(void)
{
    set_up();
    expect(hj_pair_word(MISSION, HJ_PAIRS - 1, HJ_PAIR_NUMBERS - 1) == 0,
           "the last word of the last place");
    expect(hj_refusal(hj_pair_word(MISSION, HJ_PAIRS, 0)) == 21 &&
               hj_refusal(hj_pair_word(MISSION, UINT32_MAX, 0)) == 21,
           "pair_word, place 64");
    expect(hj_refusal(hj_pair_word(MISSION, 0, HJ_PAIR_NUMBERS)) == 21 &&
               hj_refusal(hj_pair_word(MISSION, 0, UINT32_MAX)) == 21,
           "pair_word, word 5");
    expect(hj_get_pair(MISSION, HJ_PAIRS).refusal == 21, "get_pair 64");
}

/* Of a datagram that is not flooded only the second is remembered. */
static void check_second(void)
{
    hj_arrival arrival = {0, 9, 5};

    set_up();
    expect(hj_took(hj_receive(BOARD, MISSION, ROUTES, arrival, routed,
                              sizeof routed, output, sizeof output)) == 2 &&
               hj_last_second(MISSION) == 5,
           "a second is accepted");
    other = relay;
    arrival.second = 4;
    expect(hj_receive(BOARD, MISSION, ROUTES, arrival, routed, sizeof routed,
                      output, sizeof output) == HJ_SECOND_PAST &&
               hj_sweep(BOARD, MISSION, 4) == HJ_SECOND_PAST && unchanged(),
           "an earlier one changes nothing");
    expect(hj_sweep(BOARD, MISSION, 5) == HJ_DONE && unchanged(),
           "nor does a sweep at the same, where no pair is held");
    set_up();
    receive(routed, 9);
    expect(hj_sweep(BOARD, MISSION, 5) == HJ_DONE && unchanged(),
           "a sweep accepts it likewise");
}

/* The group has ports 1 and 7; port 1 is filled by route first. */
static void check_dropped(void)
{
    hj_verdict verdict = 0;

    set_up();
    for (uint16_t slot = 0; slot < HJ_QUEUE; slot++)
        verdict = receive(routed, slot);
    expect(hj_onward(verdict) == HJ_SENT_ON && hj_took(verdict) == 2 &&
               hj_dropped(verdict) == 0 && hj_header_octets(verdict, 1) == 15,
           "the 32nd entry");
    verdict = receive(grouped, 33);
    expect(hj_ended_by(verdict) == HJ_DONE &&
               hj_local(verdict) == HJ_DELIVERED &&
               hj_onward(verdict) == HJ_SENT_ON && hj_took(verdict) == 0x80 &&
               hj_dropped(verdict) == 2,
           "one port of a group full");
    verdict = receive(routed, 34);
    expect(hj_onward(verdict) == HJ_QUEUES_FULL && hj_took(verdict) == 0 &&
               hj_dropped(verdict) == 2 && hj_header_octets(verdict, 1) == 0,
           "the 33rd entry");
    expect(counter(HJ_OUT_DISCARDS) == 2, "two copies dropped");
    expect(hj_value(hj_waiting(MISSION, 1)) == HJ_QUEUE, "full");
}

static void check_taken(void)
{
    static uint8_t urgent[] = {0x20, 13, 0x1a, 0x43, 192, 0, 9,
                               1,    10, 10,   0,    4,   0xf0};
    hj_arrival arrival = {0, 7, 0};
    hj_answer taken;

    set_up();
    receive(routed, 65535);
    hj_receive(BOARD, MISSION, ROUTES, arrival, urgent, sizeof urgent, output,
               sizeof output);
    taken = hj_take(BOARD, MISSION, 1);
    expect(hj_refusal(taken) == 0 && hj_slot(taken) == 7 &&
               hj_precedence(taken) == 15,
           "the urgent one first");
    taken = hj_take(BOARD, MISSION, 1);
    expect(hj_refusal(taken) == 0 && hj_slot(taken) == 65535 &&
               hj_precedence(taken) == 0,
           "then the other");
    expect(hj_take(BOARD, MISSION, 1) ==
               (hj_answer)HJ_NOTHING_WAITING << 32,
           "then nothing");
    expect(hj_take(BOARD, MISSION, 2) == (hj_answer)HJ_NO_PORT << 32,
           "a port not set up");
}

int main(void)
{
    check_words();
    check_too_long();
    check_short();
    check_fresh();
    check_cleared();
    check_ports();
    check_route();
    check_places();
    check_empty_places();
    check_search();
    check_missions();
    check_search_not_up();
    check_none_up();
    check_null();
    check_pair_words();
    check_second();
    check_dropped();
    check_taken();
    return expect_end("relay_calls");
}
