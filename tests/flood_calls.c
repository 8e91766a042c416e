/*
 * flood_calls.c: floods, seconds and sweeps as a C program sees them: the parts
 * of each verdict, the pair that a place holds, number by number, the last
 * second and the two counters, and which words a call changes. A trace shows
 * neither the places nor the last second.
 *
 * The octets around the output, and each of its own that is in no header, are
 * compared too.
 */
#include <stdbool.h>
#include <string.h>

#include "router.h"

#define LATEST 0xffffffffu

/* The mission as it was before a call. */
static hj_mission before;

/* ---- Floods -------------------------------------------------------------- */

/* To a unit that no route is for, of 10.10.10.4. */
static hj_fields flood(uint32_t format, uint32_t p_field, uint64_t time)
{
    hj_fields fields = {0};

    fields.tp_id = 6;
    fields.extended = 1;
    fields.destination_low = 0x0a040802;
    fields.has_source = 1;
    fields.source_low = 0x0a0a0a04;
    fields.has_qos = 1;
    fields.precedence = 3;
    fields.routing = 3;
    fields.stamp_format = format;
    fields.p_field = p_field;
    fields.time = time;
    return fields;
}

static hj_verdict receive_by(uint32_t port, hj_fields fields, uint32_t second)
{
    uint8_t octets[HJ_HEADER_ROOM];
    hj_arrival arrival = {port, 7, second};
    hj_answer built = hj_build(fields, 0, octets, sizeof octets);

    expect(hj_refusal(built) == HJ_DONE, "a header to receive");
    clear_output();
    before = mission;
    return hj_receive(BOARD, MISSION, ROUTES, arrival, octets, hj_value(built),
                      output, HJ_OUTPUT_ROOM);
}

static hj_verdict receive(hj_fields fields, uint32_t second)
{
    return receive_by(0, fields, second);
}

/* A flood that differs from others by its time alone. */
static hj_verdict receive_time(uint64_t time, uint32_t second)
{
    return receive(flood(HJ_STAMP_IMPLICIT, 0, time), second);
}

static void due_header(uint32_t port, hj_fields fields)
{
    hj_build(fields, 0, due + GUARD + HJ_HEADER_ROOM * port, HJ_HEADER_ROOM);
}

static void expect_output(const char *what)
{
    expect(memcmp(space, due, sizeof space) == 0, what);
}

static bool unchanged(void)
{
    return memcmp(&before, &mission, sizeof before) == 0;
}

/* ---- What stands --------------------------------------------------------- */

static uint32_t counter(uint32_t which)
{
    return hj_value(hj_counter(MISSION, which));
}

static uint32_t held(void)
{
    uint32_t count = 0;

    for (uint32_t place = 0; place < HJ_PAIRS; place++)
        count += hj_get_pair(MISSION, place).format != 0;
    return count;
}

static void expect_pair(uint32_t place, hj_pair pair, const char *what)
{
    hj_pair found = hj_get_pair(MISSION, place);
    const uint32_t words[HJ_PAIR_NUMBERS] = {
        pair.format, pair.source,
        pair.p_field << 24 | (uint32_t)(pair.time >> 32), (uint32_t)pair.time,
        pair.second};

    expect(memcmp(&found, &pair, sizeof pair) == 0, what);
    for (uint32_t i = 0; i < HJ_PAIR_NUMBERS; i++)
        expect(hj_pair_word(MISSION, place, i) == words[i], what);
}

static hj_pair pair_of(hj_fields fields, uint32_t source, uint32_t second)
{
    hj_pair pair = {0, fields.stamp_format, source, fields.p_field,
                    fields.time, second, 0};

    return pair;
}

static void expect_free(uint32_t place, const char *what)
{
    const hj_pair none = {0, 0, 0, 0, 0, 0, 0};

    expect_pair(place, none, what);
}

/* The verdict's two halves, and nothing else of it but where the data begin. */
static void expect_halves(hj_verdict verdict, uint32_t local, uint32_t onward,
                          const char *what)
{
    expect(hj_ended_by(verdict) == HJ_DONE && hj_local(verdict) == local &&
               hj_onward(verdict) == onward && hj_took(verdict) == 0 &&
               hj_rewritten(verdict) == 0 && hj_data_from(verdict) != 0,
           what);
    expect_output(what);
}

/* ---- The pair ------------------------------------------------------------ */

static void check_kept(void)
{
    hj_fields fields = flood(HJ_STAMP_IMPLICIT, 0, 0x010203);
    hj_verdict verdict;

    set_up();
    verdict = receive(fields, 6);
    expect(hj_local(verdict) == HJ_LOCAL_NO &&
               hj_onward(verdict) == HJ_SENT_ON && hj_took(verdict) == 0x28 &&
               hj_rewritten(verdict) == 0 && hj_header_octets(verdict, 3) == 16,
           "sent to both other ports");
    due_header(3, fields);
    due_header(5, fields);
    expect_output("their headers, and no other octet");
    expect_pair(0, pair_of(fields, 0x0a0a0a04, 6), "the pair of it");
    expect(held() == 1 && hj_last_second(MISSION) == 6, "one pair, second 6");
    expect_halves(receive(fields, 9), HJ_LOCAL_NO, HJ_NOT_ASKED,
                  "no and not asked, for a held pair");
    expect_pair(0, pair_of(fields, 0x0a0a0a04, 6), "which grows no younger");
    expect(hj_last_second(MISSION) == 9, "but the second is accepted");
    expect(counter(HJ_IN_RECEIVES) == 2 && counter(HJ_FORW_DATAGRAMS) == 1,
           "one of two sent on");
}

/* Each is another pair, and is told number by number. */
static void check_formats(void)
{
    const hj_fields floods[] = {
        flood(HJ_STAMP_IMPLICIT, 0, 1),
        flood(HJ_STAMP_EXPLICIT, 0x02, 1),
        flood(HJ_STAMP_EXPLICIT, 0x08, 1),
        flood(HJ_STAMP_EXPLICIT, 0x12, 1),
        flood(HJ_STAMP_BINARY, 0, 1),
        flood(HJ_STAMP_BINARY, 0, 0xffffffff),
        flood(HJ_STAMP_EXPLICIT, 0x00, 0xff),
        flood(HJ_STAMP_EXPLICIT, 0xff, 0xffffffffffffff),
        flood(HJ_STAMP_EXPLICIT, 0xff, 0xffffff00000000),
        flood(HJ_STAMP_EXPLICIT, 0xff, 0x000000ffffffff)};
    const uint32_t count = sizeof floods / sizeof *floods;

    set_up();
    for (uint32_t i = 0; i < count; i++) {
        expect(hj_took(receive(floods[i], i)) == 0x28, "a new pair");
        expect_pair(i, pair_of(floods[i], 0x0a0a0a04, i), "the next place");
    }
    for (uint32_t i = 0; i < count; i++)
        expect(hj_onward(receive(floods[i], 99)) == HJ_NOT_ASKED, "held");
    expect(held() == count, "and no other");
}

/* 10.10.10.4 in one octet and in four; in one octet by port 3 it is
 * 10.10.11.4. Destination, transport and data are no part of a pair. */
static void check_both_forms(void)
{
    hj_fields four = flood(HJ_STAMP_IMPLICIT, 0, 1);
    hj_fields one = four;

    one.extended = 0;
    one.source_low = 0x04;
    one.destination_low = 0x08;
    set_up();
    expect(hj_took(receive(one, 1)) == 0x28, "kept in one octet");
    expect_pair(0, pair_of(one, 0x0a0a0a04, 1), "the source has four");
    expect(hj_onward(receive(four, 1)) == HJ_NOT_ASKED, "held in four");
    four.tp_id = 5;
    four.destination_low = 0xe0000001;
    expect(hj_onward(receive(four, 1)) == HJ_NOT_ASKED, "whatever else it is");
    expect(hj_took(receive_by(3, one, 1)) == 0x21, "another by another port");
    expect_pair(1, pair_of(one, 0x0a0a0b04, 1), "the source of that domain");
    four.source_low = 0x0a0a0b04;
    expect(hj_onward(receive(four, 1)) == HJ_NOT_ASKED, "held in four too");
}

static void check_widened(void)
{
    hj_fields fields = flood(HJ_STAMP_BINARY, 0, 77);
    hj_verdict verdict;

    fields.extended = 0;
    fields.source_low = 0x04;
    fields.destination_low = 0x08;
    fields.has_hop_count = 1;
    fields.hop_count = 9;
    fields.has_checksum = 1;
    set_up();
    expect(hj_set_route(BOARD, ROUTES, 0, 0, 0, 3, HJ_UP, HJ_CAPABLE_BOTH,
                        0) == HJ_DONE,
           "a route that asks for what a flood is not given");
    verdict = receive(fields, 1);
    expect(hj_took(verdict) == 0x28 && hj_rewritten(verdict) == 8 &&
               hj_header_octets(verdict, 5) == 14 &&
               hj_header_octets(verdict, 3) == 20,
           "kept and widened at once");
    fields.hop_count = 8;
    due_header(5, fields);
    fields.extended = 1;
    fields.source_low = 0x0a0a0a04;
    fields.destination_low = 0x0a0a0a08;
    due_header(3, fields);
    expect_output("hop count one lower, checksum redone");
    fields = flood(HJ_STAMP_BINARY, 0, 78);
    verdict = receive(fields, 1);
    expect(hj_took(verdict) == 0x28 && hj_rewritten(verdict) == 0,
           "nothing is added");
    due_header(3, fields);
    due_header(5, fields);
    expect_output("as it came");
}

/* ---- What keeps no pair -------------------------------------------------- */

/* A refusal of 28: one receipt, one in its counter, and the second. */
static void expect_unmarked(hj_fields fields, uint32_t second,
                            const char *what)
{
    expect(receive(fields, second) == HJ_FLOOD_UNMARKED, what);
    expect_output(what);
    expect(hj_last_second(MISSION) == second && held() == 0, what);
}

static void check_unmarked(void)
{
    hj_fields path = flood(HJ_STAMP_IMPLICIT, 0, 1);
    hj_fields bare = flood(HJ_STAMP_NONE, 0, 0);

    path.has_source = 0;
    path.source_low = 0;
    path.destination_low = 0x0a0a0a23;
    set_up();
    expect_unmarked(path, 1, "28, no source");
    expect_unmarked(bare, 2, "28, no timestamp");
    path.stamp_format = HJ_STAMP_NONE;
    path.time = 0;
    expect_unmarked(path, 3, "28, neither");
    bare.destination_low = 0x0a0a0a02;
    expect_unmarked(bare, 4, "28, to a port's address");
    expect(hj_set_router(BOARD, 0) == HJ_DONE, "a host");
    expect_unmarked(bare, 5, "28, on a host");
    expect(counter(HJ_IN_RECEIVES) == 5 &&
               counter(HJ_FLOOD_UNMARKED_COUNT) == 5,
           "five receipts, and five of 28");
    bare.source_low = 0x0a0a0a05;
    expect(receive(bare, 5) == HJ_BAD_ADDRESS, "6 before 28");
    bare.routing = 1;
    expect(receive(bare, 5) == HJ_NOT_CARRIED, "8 for routing 1");
    bare.routing = 2;
    expect(receive(bare, 5) == HJ_NOT_CARRIED, "8 for routing 2");
    expect(counter(HJ_FLOOD_UNMARKED_COUNT) == 5, "and 28 no more");
}

static void check_here(void)
{
    hj_fields fields = flood(HJ_STAMP_IMPLICIT, 0, 1);

    set_up();
    fields.destination_low = 0x0a0a0b02;
    expect_halves(receive(fields, 1), HJ_DELIVERED, HJ_NOT_ASKED,
                  "a port's address");
    fields.destination_low = 0xffffffff;
    expect_halves(receive(fields, 1), HJ_DELIVERED, HJ_NOT_ASKED,
                  "the limited broadcast");
    fields.tp_id = 0;
    expect_halves(receive(fields, 1), HJ_UNKNOWN_TP_ID, HJ_NOT_ASKED, "26");
    expect(held() == 0, "no pair is kept");
    fields.destination_low = 0x0a0a0aff;
    expect(hj_took(receive(fields, 1)) == 0x28, "a broadcast of ours is sent");
    expect_halves(receive(fields, 1), HJ_UNKNOWN_TP_ID, HJ_NOT_ASKED,
                  "and 26 when it comes again");
    fields.tp_id = 6;
    expect_halves(receive(fields, 1), HJ_DELIVERED, HJ_NOT_ASKED,
                  "or delivered");
}

static void check_host(void)
{
    hj_fields fields = flood(HJ_STAMP_IMPLICIT, 0, 1);

    set_up();
    expect(hj_set_router(BOARD, 0) == HJ_DONE, "a host");
    expect_halves(receive(fields, 1), HJ_LOCAL_NO, HJ_NOT_FOR_US, "9");
    fields.intermediate = 1;
    expect_halves(receive(fields, 1), HJ_DELIVERED, HJ_NOT_ASKED, "delivered");
    expect(held() == 0, "a host keeps nothing");
}

/* ---- Kept, whatever follows ---------------------------------------------- */

/* The onward half, and that the pair is held afterwards. */
static void expect_kept(hj_fields fields, uint32_t onward, const char *what)
{
    uint32_t count = held();

    expect_halves(receive(fields, 1), HJ_LOCAL_NO, onward, what);
    expect(held() == count + 1, what);
    expect_halves(receive(fields, 1), HJ_LOCAL_NO, HJ_NOT_ASKED, what);
    expect(held() == count + 1, what);
}

static void check_kept_and_refused(void)
{
    hj_fields fields = flood(HJ_STAMP_IMPLICIT, 0, 1);

    expect(hj_fresh_board(BOARD) == 0 && hj_fresh_mission(MISSION, 0) == 0 &&
               hj_set_router(BOARD, 1) == 0,
           "a router");
    set_port(0, 0x0a0a0a02, 8191);
    expect_kept(fields, HJ_NO_ROUTE, "11, no other port");
    set_port(3, 0x0a0a0b02, 15);
    fields.time = 2;
    expect_kept(fields, HJ_TOO_BIG, "14, 16 octets of 15");
    fields.has_hop_count = 1;
    for (fields.hop_count = 0; fields.hop_count < 2; fields.hop_count++) {
        fields.time++;
        expect_kept(fields, HJ_HOPS_USED_UP, "10, before 14");
    }
    set_port(5, 0x0a0a0c02, 8191);
    for (uint32_t i = 0; i < HJ_QUEUE; i++)
        expect(hj_took(receive_time(100 + i, 1)) == 0x20, "filling port 5");
    expect_kept(flood(HJ_STAMP_IMPLICIT, 0, 9), HJ_QUEUES_FULL, "15");
    expect(counter(HJ_OUT_NO_ROUTES) == 1 && counter(HJ_TOO_BIG_COUNT) == 1 &&
               counter(HJ_FORW_HOP_DISCARD) == 2 &&
               counter(HJ_OUT_DISCARDS) == 1,
           "each in its counter");
}

/* ---- All places held ----------------------------------------------------- */

static void drain(void)
{
    for (uint32_t port = 0; port < HJ_PORTS; port++) {
        while (hj_refusal(hj_take(BOARD, MISSION, port)) == HJ_DONE)
            continue;
    }
}

static void fill_places(void)
{
    for (uint32_t i = 0; i < HJ_PAIRS; i++) {
        expect(hj_onward(receive_time(i, i)) == HJ_SENT_ON, "a pair more");
        expect(hj_get_pair(MISSION, i).second == i, "in the next place");
        drain();
    }
}

static void check_full(void)
{
    hj_fields fields = flood(HJ_STAMP_IMPLICIT, 0, 64);

    set_up();
    fill_places();
    expect_halves(receive(fields, 64), HJ_LOCAL_NO, HJ_PAIRS_HELD, "30");
    fields.intermediate = 1;
    expect_halves(receive(fields, 64), HJ_DELIVERED, HJ_PAIRS_HELD,
                  "30, and delivered");
    fields.destination_low = 0x0a0a0a02;
    expect_halves(receive(fields, 64), HJ_DELIVERED, HJ_NOT_ASKED,
                  "a port's address before 30");
    expect_halves(receive_time(0, 64), HJ_LOCAL_NO, HJ_NOT_ASKED, "held, 0");
    expect_halves(receive_time(63, 64), HJ_LOCAL_NO, HJ_NOT_ASKED, "held, 63");
    expect(counter(HJ_PAIRS_HELD_COUNT) == 2 &&
               counter(HJ_FLOOD_UNMARKED_COUNT) == 0,
           "two in the counter of 30");
    expect(held() == HJ_PAIRS, "and nothing was kept");
}

/* Ages 62 to 64 at second 64, of the lowest three places. */
static void check_reused(void)
{
    set_up();
    expect(hj_set_lifetime(BOARD, 62) == HJ_DONE, "set_lifetime");
    fill_places();
    expect(hj_sweep(BOARD, MISSION, 64) == HJ_DONE, "a sweep");
    expect(held() == HJ_PAIRS - 2, "two are older");
    expect_free(0, "the first is free");
    expect_free(1, "and the second");
    expect(hj_get_pair(MISSION, 2).time == 2, "the third is not");
    expect(hj_onward(receive_time(100, 64)) == HJ_SENT_ON, "room again");
    expect(hj_get_pair(MISSION, 0).time == 100, "in the lowest place");
    expect(hj_onward(receive_time(0, 64)) == HJ_SENT_ON, "freed, so new");
    expect(hj_get_pair(MISSION, 1).second == 64, "with the new second");
    expect(hj_onward(receive_time(101, 64)) == HJ_PAIRS_HELD, "full again");
}

/* ---- Seconds ------------------------------------------------------------- */

static void check_seconds(void)
{
    hj_arrival arrival = {0, 7, 9};

    set_up();
    receive_time(1, 5);
    before = mission;
    expect(hj_receive(BOARD, MISSION, ROUTES, arrival, NULL, 0, output, 399) ==
                   HJ_SHORT_OUTPUT &&
               unchanged(),
           "17 accepts no second");
    arrival.port = 1;
    expect(hj_receive(BOARD, MISSION, ROUTES, arrival, NULL, 0, output, 400) ==
                   HJ_NO_PORT &&
               unchanged(),
           "nor 16");
    expect(receive_time(2, 4) == HJ_SECOND_PAST && unchanged(),
           "29 changes nothing");
    expect_output("and writes nothing");
    expect(hj_sweep(BOARD, MISSION, 4) == HJ_SECOND_PAST && unchanged(),
           "a sweep's neither");
    arrival.port = 0;
    expect(hj_receive(BOARD, MISSION, ROUTES, arrival, NULL, 0, output, 400) ==
               HJ_SHORT,
           "1");
    expect(hj_last_second(MISSION) == 9, "1 accepts it");
    expect(hj_onward(receive_time(2, 9)) == HJ_SENT_ON, "the same again");
}

/* One call with the greatest second, and only a fresh mission ends it. */
static void check_latest(void)
{
    set_up();
    expect(hj_sweep(BOARD, MISSION, LATEST) == HJ_DONE, "the greatest");
    expect(hj_last_second(MISSION) == LATEST, "is accepted");
    expect(receive_time(1, LATEST - 1) == HJ_SECOND_PAST &&
               hj_sweep(BOARD, MISSION, 0) == HJ_SECOND_PAST,
           "all others are past");
    expect(hj_onward(receive_time(1, LATEST)) == HJ_SENT_ON, "itself is not");
    expect(hj_fresh_mission(MISSION, 0) == HJ_DONE &&
               hj_last_second(MISSION) == 0 && held() == 0,
           "a fresh mission");
    expect(hj_onward(receive_time(1, 0)) == HJ_SENT_ON, "begins at 0");
}

/* ---- Sweeps -------------------------------------------------------------- */

/* A pair of second 10, swept at a second with a lifetime. */
static void expect_swept(uint32_t lifetime, uint32_t second, bool freed,
                         const char *what)
{
    set_up();
    expect(hj_set_lifetime(BOARD, lifetime) == HJ_DONE, what);
    receive_time(1, 10);
    before = mission;
    expect(hj_sweep(BOARD, MISSION, second) == HJ_DONE, what);
    expect(held() == (freed ? 0 : 1), what);
    expect(hj_last_second(MISSION) == second, what);
    for (uint32_t i = 0; i < HJ_COUNTERS; i++)
        expect(counter(i) ==
                   hj_value(hj_counter(&before, HJ_MISSION_WORDS, i)),
               "a sweep counts nothing");
    expect(hj_value(hj_waiting(MISSION, 3)) == 1, "and takes nothing");
}

static void check_sweeps(void)
{
    expect_swept(0, 10, false, "lifetime 0, age 0");
    expect_swept(0, 11, true, "lifetime 0, age 1");
    expect_swept(5, 15, false, "an age equal to the lifetime");
    expect_swept(5, 16, true, "one over it");
    expect_swept(LATEST - 10, LATEST, false, "the greatest age");
    expect_swept(LATEST - 11, LATEST, true, "one over it");
    expect_swept(LATEST, LATEST, false, "the greatest lifetime");
}

/* Both missions have the board's lifetime, and each its own pairs. */
static void check_other_mission(void)
{
    static hj_mission second;

    set_up();
    expect(hj_fresh_mission(&second, HJ_MISSION_WORDS, 1) == HJ_DONE,
           "the second mission");
    receive_time(1, 3);
    before = mission;
    expect(hj_sweep(BOARD, &second, HJ_MISSION_WORDS, 100) == HJ_DONE &&
               hj_last_second(&second, HJ_MISSION_WORDS) == 100 && unchanged(),
           "its sweep leaves the first as it was");
}

/* No other word of the board is written, nor the one behind it: with the old
 * lifetime again it is the same. */
static void check_lifetime(void)
{
    static const uint32_t LIFETIMES[] = {0, 1, 60, LATEST - 1, LATEST};
    struct {
        hj_board board;
        uint32_t after;
    } guarded, same;

    set_up();
    receive_time(1, 3);
    guarded.board = board;
    guarded.after = 0xa5a5a5a5;
    same = guarded;
    for (size_t i = 0; i < sizeof LIFETIMES / sizeof *LIFETIMES; i++)
        expect(hj_set_lifetime(&guarded.board, HJ_BOARD_WORDS,
                               LIFETIMES[i]) == HJ_DONE &&
                   hj_get_lifetime(&guarded.board, HJ_BOARD_WORDS) ==
                       LIFETIMES[i],
               "any lifetime");
    expect(hj_set_lifetime(&guarded.board, HJ_BOARD_WORDS, 0) == HJ_DONE &&
               memcmp(&same, &guarded, sizeof same) == 0,
           "and nothing else of the board");
    expect(held() == 1, "a lifetime frees nothing");
}

int main(void)
{
    check_kept();
    check_formats();
    check_both_forms();
    check_widened();
    check_unmarked();
    check_here();
    check_host();
    check_kept_and_refused();
    check_full();
    check_reused();
    check_seconds();
    check_latest();
    check_sweeps();
    check_other_mission();
    check_lifetime();
    return expect_end("flood_calls");
}
