/*
 * Cases of page 02, W-208, worked out by hand: two missions on one board, each
 * with its own ports and routes, and a list of records that may hold anything.
 *
 * The awkward case is what one mission must not see: the other's ports, their
 * addresses and broadcasts, and its routes. Each is tried with both missions,
 * so that an answer which ignores the mission is found out.
 */
#include <string.h>

#include "plain_check.h"
#include "plain_header.h"
#include "plain_relay.h"

enum {
    MOST = PLAIN_ROUTES + 1,
    OURS = 0x0a0a0a02,  /* port 0, mission 0 */
    OURS2 = 0x0a0a0b02  /* port 1, mission 0 */
};

static const uint32_t THEIRS = 0xc0000201; /* port 4, mission 1 */
static const uint32_t net24 = 0xffffff00;

static plain_board board;
static plain_mission missions[PLAIN_MISSIONS];
static plain_record records[MOST];
static size_t lent = PLAIN_ROUTES; /* of the records */

static plain_view seen_by(uint32_t mission)
{
    plain_view view = {&board, &missions[mission], {records, lent}};
    return view;
}

static plain_refusal set_port(uint32_t number, uint32_t address,
                              uint32_t mission)
{
    plain_port port = {{address}, {net24}, 8191, mission};
    return plain_set_port(&board, number, &port);
}

static plain_refusal set_route(uint32_t place, plain_record record)
{
    plain_list list = {records, lent};
    return plain_set_route(&board, list, place, &record);
}

/* A route to 192.0.9.0, which is up. */
static plain_record route(uint32_t port, uint32_t mission)
{
    plain_record record = {1, {0xc0000900}, {net24}, port, PLAIN_UP, 0,
                           mission};
    return record;
}

static plain_record down(plain_record record)
{
    record.availability = PLAIN_DOWN;
    return record;
}

static plain_record default_route(uint32_t port, uint32_t mission)
{
    plain_record record = {1, {0}, {0}, port, PLAIN_UP, 0, mission};
    return record;
}

static void fresh(void)
{
    plain_board_fresh(&board);
    for (uint32_t number = 0; number < PLAIN_MISSIONS; number++)
        CHECK_EQUAL(plain_mission_fresh(&missions[number], number), 0);
    memset(records, 0, sizeof records);
    lent = PLAIN_ROUTES;
    CHECK_EQUAL(plain_set_router(&board, 1), 0);
    CHECK_EQUAL(set_port(0, OURS, 0), 0);
    CHECK_EQUAL(set_port(1, OURS2, 0), 0);
    CHECK_EQUAL(set_port(4, THEIRS, 1), 0);
}

/* The place that the address takes; MOST for none, 1000 for a refusal. */
static uint32_t found(uint32_t address, uint32_t mission)
{
    plain_view view = seen_by(mission);
    plain_address asked = {address};
    plain_found answer = plain_search(&view, asked);

    if (answer.refusal != PLAIN_GOOD)
        return 1000 + (uint32_t)answer.refusal;
    return answer.found ? answer.place : (uint32_t)MOST;
}

static plain_verdict send_fields(uint32_t mission, uint32_t arrival,
                                 plain_fields fields)
{
    plain_view view = seen_by(mission);
    plain_slot slot = {7};
    uint8_t octets[PLAIN_HEADER_MOST], output[PLAIN_OUTPUT_ROOM];
    uint32_t length = 0;

    CHECK_EQUAL(plain_header_build(&fields, 0, octets, sizeof octets, &length),
                0);
    return plain_receive(&view, arrival, slot, 0, octets, length, output,
                         sizeof output);
}

static plain_verdict send(uint32_t mission, uint32_t arrival,
                          uint32_t destination)
{
    plain_fields fields = {.tp_id = 6, .source_present = 1, .extended = 1,
                           .source = {0, 0x0a0a0a04}};

    fields.destination.low = destination;
    return send_fields(mission, arrival, fields);
}

static uint32_t waits(uint32_t mission, uint32_t port)
{
    uint32_t waiting = 99;

    CHECK_EQUAL(plain_waiting(&missions[mission], port, &waiting), 0);
    return waiting;
}

static void test_fresh_missions(void)
{
    plain_mission before = missions[0];

    CHECK_EQUAL(plain_mission_fresh(&missions[0], 2), PLAIN_SET_CODE);
    CHECK_EQUAL(plain_mission_fresh(&missions[0], 4294967295), PLAIN_SET_CODE);
    CHECK_EQUAL(memcmp(&before, &missions[0], sizeof before), 0);
    CHECK_EQUAL(plain_mission_fresh(&missions[1], 1), 0);
    CHECK_EQUAL(missions[1].number, 1);
}

static void test_ports_of_each(void)
{
    fresh();
    CHECK_EQUAL(set_port(5, OURS, 2), PLAIN_SET_CODE);
    CHECK_EQUAL(set_port(4, THEIRS, 2), PLAIN_SET_CODE); /* 24 before 35 */
    CHECK_EQUAL(set_port(4, THEIRS, 0), PLAIN_SET_TWICE);
    CHECK_EQUAL(set_port(4, THEIRS, 1), PLAIN_SET_TWICE);
    CHECK_EQUAL(board.set_up.bits, 0x13);
    CHECK_EQUAL(board.owned[0].bits, 3);
    CHECK_EQUAL(board.owned[1].bits, 0x10);
}

static void test_the_other_ports_are_not_there(void)
{
    plain_view ours, theirs;
    plain_group group = {{0xe0000001}, {0x10}, {0}};
    plain_path_place path = {{0x0a0a0a08}, {3}, 0};
    plain_entry entry;

    fresh();
    ours = seen_by(0);
    theirs = seen_by(1);
    CHECK_EQUAL(send(0, 4, 0xc0000901).refusal, PLAIN_NO_PORT);
    CHECK_EQUAL(send(1, 0, 0xc0000901).refusal, PLAIN_NO_PORT);
    CHECK_EQUAL(plain_take(&ours, 4, &entry), PLAIN_NO_PORT);
    CHECK_EQUAL(plain_take(&theirs, 4, &entry), PLAIN_NOTHING_WAITS);
    CHECK_EQUAL(plain_take(&theirs, 0, &entry), PLAIN_NO_PORT);
    CHECK_EQUAL(plain_set_group(&ours, 0, &group), PLAIN_SET_NUMBER);
    CHECK_EQUAL(plain_set_group(&theirs, 0, &group), 0);
    CHECK_EQUAL(plain_set_path(&theirs, 0, &path), PLAIN_SET_NUMBER);
    CHECK_EQUAL(plain_set_path(&ours, 0, &path), 0);
    CHECK_EQUAL(missions[0].counters.counts[PLAIN_IN_RECEIVES], 0);
}

/* The other's address, its subnet's broadcast and all other set-up ports. */
static void test_the_other_addresses_are_not_ours(void)
{
    fresh();
    CHECK_EQUAL(send(0, 0, THEIRS).local, PLAIN_LOCAL_NO);
    CHECK_EQUAL(send(0, 0, THEIRS).onward, PLAIN_NO_ROUTE);
    CHECK_EQUAL(send(1, 4, THEIRS).local, PLAIN_LOCAL_DELIVERED);
    CHECK_EQUAL(send(0, 0, 0xc00002ff).local, PLAIN_LOCAL_NO);
    CHECK_EQUAL(send(1, 4, 0xc00002ff).local, PLAIN_LOCAL_DELIVERED);
    CHECK_EQUAL(send(1, 4, 0xc00002ff).onward, PLAIN_ONWARD_NOT_ASKED);
    CHECK_EQUAL(send(1, 4, 0x0affffff).local, PLAIN_LOCAL_NO);
    CHECK_EQUAL(send(0, 0, 0x0affffff).took.bits, 2);
    CHECK_EQUAL(missions[0].counters.counts[PLAIN_IN_RECEIVES], 4);
    CHECK_EQUAL(missions[1].counters.counts[PLAIN_IN_RECEIVES], 4);
}

/* A board made fresh alone, whose port 1 is now the other's. A group and a
 * path still want it, but for the mission it has no address and no MTU. */
static void test_sets_of_an_older_board(void)
{
    plain_group group = {{0x0a0a0a0f}, {2}, {0}};
    plain_path_place place = {{0x0a0a0a10}, {2}, 0};
    plain_fields octet = {.tp_id = 6, .source_present = 1,
                          .destination = {0, 0x0f}, .source = {0, 0x04}};
    plain_fields path = {.tp_id = 6, .destination = {0, 0x10}};
    plain_fields wide_path = {.tp_id = 6, .extended = 1,
                              .destination = {0, 0x0a0a0a10}};
    plain_view ours;

    fresh();
    ours = seen_by(0);
    CHECK_EQUAL(plain_set_group(&ours, 0, &group), 0);
    CHECK_EQUAL(plain_set_path(&ours, 0, &place), 0);
    plain_board_fresh(&board);
    CHECK_EQUAL(plain_set_router(&board, 1), 0);
    CHECK_EQUAL(set_port(0, OURS, 0), 0);
    CHECK_EQUAL(set_port(1, 0x0a0a0a06, 1), 0);
    CHECK_EQUAL(send(0, 0, 0x0a0a0a0f).onward, PLAIN_TOO_BIG);
    CHECK_EQUAL(send_fields(0, 0, octet).onward, PLAIN_TOO_BIG);
    CHECK_EQUAL(send_fields(0, 0, wide_path).onward, PLAIN_TOO_BIG);
    CHECK_EQUAL(send_fields(0, 0, path).onward, PLAIN_LEAVES_DOMAIN);
    CHECK_EQUAL(waits(0, 1), 0);
    CHECK_EQUAL(waits(1, 1), 0);
}

static void test_routes_of_each(void)
{
    fresh();
    CHECK_EQUAL(set_route(3, route(4, 0)), PLAIN_SET_CODE);
    CHECK_EQUAL(set_route(3, route(1, 1)), PLAIN_SET_CODE);
    CHECK_EQUAL(set_route(3, route(5, 1)), PLAIN_SET_NUMBER);
    CHECK_EQUAL(set_route(3, route(1, 2)), PLAIN_SET_CODE);
    CHECK_EQUAL(set_route(3, route(1, 0)), 0);
    CHECK_EQUAL(set_route(9, route(4, 1)), 0); /* the same but the mission */
    CHECK_EQUAL(set_route(10, route(4, 1)), PLAIN_SET_SAME);
    CHECK_EQUAL(set_route(10, route(4, 0)), PLAIN_SET_CODE); /* before 23 */
    CHECK_EQUAL(set_route(9, down(route(4, 1))), 0);
    CHECK_EQUAL(found(0xc0000901, 0), 3);
    CHECK_EQUAL(found(0xc0000901, 1), MOST);
    CHECK_EQUAL(set_route(9, route(4, 1)), 0);
    CHECK_EQUAL(found(0xc0000901, 1), 9);
    CHECK_EQUAL(send(0, 0, 0xc0000901).took.bits, 2);
    CHECK_EQUAL(send(1, 4, 0xc0000901).took.bits, 0x10);
    CHECK_EQUAL(waits(0, 1), 1);
    CHECK_EQUAL(waits(1, 1), 0);
    CHECK_EQUAL(waits(1, 4), 1);
}

/* Each record here is refused, and the default route is what is left. */
static void test_refused_records(void)
{
    plain_record wrong[10];
    const size_t count = sizeof wrong / sizeof *wrong;

    for (size_t at = 0; at < count; at++)
        wrong[at] = route(1, 0);
    wrong[0].port = 5;                /* not set up */
    wrong[1].port = 8;                /* no port */
    wrong[2].port = 4;                /* the other's */
    wrong[3].mask.bits = 0xff00ff00;  /* no mask */
    wrong[4].prefix.bits = 0xc0000901; /* a one outside the mask */
    wrong[5].availability = 0;
    wrong[6].availability = 5;
    wrong[7].capabilities = 3;
    wrong[8].mission = 2;
    wrong[9].filled = 0;
    for (size_t at = 0; at < count; at++) {
        fresh();
        records[0] = wrong[at];
        records[8] = default_route(0, 0);
        CHECK_EQUAL(found(0xc0000901, 0), 8);
        CHECK_EQUAL(found(0xc0000901, 1), MOST);
        /* It hides no other either, and is none for 23. */
        CHECK_EQUAL(set_route(5, route(1, 0)), 0);
        CHECK_EQUAL(found(0xc0000901, 0), 5);
    }
}

static void test_filled_numbers(void)
{
    fresh();
    records[6] = route(1, 0);
    records[6].filled = 4294967295;
    CHECK_EQUAL(found(0xc0000901, 0), 6);
    records[6].filled = 2;
    CHECK_EQUAL(found(0xc0000901, 0), 6);
    CHECK_EQUAL(set_route(7, route(1, 0)), PLAIN_SET_SAME);
    CHECK_EQUAL(set_route(6, route(1, 0)), 0);
    CHECK_EQUAL(records[6].filled, 1);
}

/* Of two same entries the lower place holds, even where it is not up. */
static void test_same_entries(void)
{
    fresh();
    records[2] = default_route(0, 0);
    records[4] = route(1, 0);
    records[7] = route(0, 0);
    CHECK_EQUAL(found(0xc0000901, 0), 4);
    CHECK_EQUAL(send(0, 0, 0xc0000901).took.bits, 2);
    records[4].availability = PLAIN_TESTING;
    CHECK_EQUAL(found(0xc0000901, 0), 2);
    CHECK_EQUAL(send(0, 0, 0xc0000901).took.bits, 1);
    records[4].mission = 1; /* refused: the port is not its own */
    CHECK_EQUAL(found(0xc0000901, 0), 7);
    records[4] = down(route(1, 0));
    records[2] = down(default_route(1, 0));
    records[3] = default_route(0, 0);
    CHECK_EQUAL(found(0xc0000901, 0), MOST); /* both are hidden */
    CHECK_EQUAL(send(0, 0, 0xc0000901).onward, PLAIN_NO_ROUTE);
}

/* 23 is given exactly where the lowest that holds the entry is elsewhere. */
static void test_same_entry_at_a_writing(void)
{
    fresh();
    records[4] = down(route(1, 0));
    records[7] = route(0, 0);
    CHECK_EQUAL(set_route(7, route(1, 0)), PLAIN_SET_SAME);
    CHECK_EQUAL(set_route(9, route(1, 0)), PLAIN_SET_SAME);
    CHECK_EQUAL(set_route(4, route(1, 0)), 0); /* though 7 holds it too */
    CHECK_EQUAL(found(0xc0000901, 0), 4);
    records[4].capabilities = 3;
    CHECK_EQUAL(set_route(4, route(1, 0)), PLAIN_SET_SAME);
    CHECK_EQUAL(set_route(7, route(1, 0)), 0);
}

static void test_short_lists(void)
{
    plain_list list = {records, 8};

    fresh();
    records[7] = route(1, 0);
    records[8] = default_route(0, 0);
    lent = 8;
    CHECK_EQUAL(found(0xc0000901, 0), 7);
    CHECK_EQUAL(found(0xc1000901, 0), MOST); /* place 8 is beyond the end */
    CHECK_EQUAL(set_route(8, route(1, 0)), PLAIN_SET_NUMBER);
    CHECK_EQUAL(plain_clear_route(list, 8), PLAIN_SET_NUMBER);
    CHECK_EQUAL(plain_clear_route(list, 7), 0);
    CHECK_EQUAL(records[7].mask.bits, 0);
    CHECK_EQUAL(found(0xc0000901, 0), MOST);
    lent = 0;
    CHECK_EQUAL(found(0xc0000901, 0), MOST);
    CHECK_EQUAL(send(0, 0, 0xc0000901).onward, PLAIN_NO_ROUTE);
    CHECK_EQUAL(send(0, 0, OURS).local, PLAIN_LOCAL_DELIVERED);
    CHECK_EQUAL(set_route(0, route(1, 0)), PLAIN_SET_NUMBER);
}

/* 21 before all else, and nothing is counted. */
static void test_long_lists(void)
{
    plain_list list = {records, MOST};

    fresh();
    records[0] = route(1, 0);
    lent = MOST;
    CHECK_EQUAL(found(0xc0000901, 0), 1021);
    CHECK_EQUAL(send(0, 0, 0xc0000901).refusal, PLAIN_SET_NUMBER);
    CHECK_EQUAL(send(0, 7, 0xc0000901).refusal, PLAIN_SET_NUMBER);
    CHECK_EQUAL(set_route(5, route(1, 2)), PLAIN_SET_NUMBER);
    CHECK_EQUAL(plain_clear_route(list, 0), PLAIN_SET_NUMBER);
    CHECK_EQUAL(records[0].filled, 1);
    CHECK_EQUAL(missions[0].counters.counts[PLAIN_IN_RECEIVES], 0);
    lent = PLAIN_ROUTES;
    CHECK_EQUAL(send(0, 0, 0xc0000901).took.bits, 2);
}

/* One mission's full queue is nothing to the other. */
static void test_queues_of_each(void)
{
    fresh();
    CHECK_EQUAL(set_route(0, route(1, 0)), 0);
    CHECK_EQUAL(set_route(1, route(4, 1)), 0);
    for (unsigned round = 0; round < 40; round++)
        send(0, 0, 0xc0000901);
    CHECK_EQUAL(waits(0, 1), 32);
    CHECK_EQUAL(missions[0].counters.counts[PLAIN_OUT_DISCARDS], 8);
    CHECK_EQUAL(send(1, 4, 0xc0000901).took.bits, 0x10);
    CHECK_EQUAL(waits(1, 4), 1);
    CHECK_EQUAL(missions[1].counters.counts[PLAIN_OUT_DISCARDS], 0);
    CHECK_EQUAL(missions[1].counters.counts[PLAIN_IN_RECEIVES], 1);
}

int main(void)
{
    test_fresh_missions();
    test_ports_of_each();
    test_the_other_ports_are_not_there();
    test_the_other_addresses_are_not_ours();
    test_sets_of_an_older_board();
    test_routes_of_each();
    test_refused_records();
    test_filled_numbers();
    test_same_entries();
    test_same_entry_at_a_writing();
    test_short_lists();
    test_long_lists();
    test_queues_of_each();
    return checks_report("test_missions");
}
