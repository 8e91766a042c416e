/*
 * A relay with one mission, number 0, for the test programs: its settings, and
 * a datagram received by it.
 *
 * The awkward case is what does not happen: an octet written that should have
 * stayed as lent. So `receive` looks at the whole output after every call, and
 * at the octets behind it. No two stretches are lent alike, so that octets
 * copied from one to another are seen. And it looks whether the second was
 * accepted that should have been, and no other.
 */
#ifndef PLAIN_BED_H
#define PLAIN_BED_H

#include <string.h>

#include "plain_check.h"
#include "plain_relay.h"

static const uint32_t net24 = 0xffffff00;

/* All that lasts. */
static struct {
    plain_board board;
    plain_mission mission;
    plain_record records[PLAIN_ROUTES];
} relay;

static const plain_view view = {
    &relay.board, &relay.mission, {relay.records, PLAIN_ROUTES}};
static const plain_list list = {relay.records, PLAIN_ROUTES};

static uint8_t output[PLAIN_OUTPUT_ROOM + 8];
static uint8_t octets[PLAIN_LENGTH_MOST + 8];

static uint32_t now; /* the second at which `receive` receives */

#define CHECK_COUNT(counter, due) \
    CHECK_EQUAL(relay.mission.counters.counts[counter], due)

#define CHECK_VERDICT(verdict, refusal_due, local_due, onward_due, took_due) \
    do { \
        plain_verdict got = (verdict); \
        CHECK_EQUAL(got.refusal, refusal_due); \
        CHECK_EQUAL(got.local, local_due); \
        CHECK_EQUAL(got.onward, onward_due); \
        CHECK_EQUAL(got.took.bits, took_due); \
    } while (0)

static plain_refusal set_port(uint32_t number, uint32_t address,
                              uint32_t mask, uint32_t mtu)
{
    plain_port port = {{address}, {mask}, mtu, 0};
    return plain_set_port(&relay.board, number, &port);
}

static plain_refusal set_group(uint32_t place, uint32_t address,
                               uint32_t send, uint32_t subscribed)
{
    plain_group group = {{address}, {send}, {subscribed}};
    return plain_set_group(&view, place, &group);
}

static plain_refusal set_path(uint32_t place, uint32_t path, uint32_t send,
                              uint32_t here)
{
    plain_path_place setting = {{path}, {send}, here};
    return plain_set_path(&view, place, &setting);
}

static void fresh(void)
{
    plain_board_fresh(&relay.board);
    CHECK_EQUAL(plain_mission_fresh(&relay.mission, 0), PLAIN_GOOD);
    memset(relay.records, 0, sizeof relay.records);
    now = 0;
}

static uint8_t lent_at(uint32_t at)
{
    return (uint8_t)(0xa5 ^ at);
}

static void lend_output(void)
{
    for (uint32_t at = 0; at < sizeof output; at++)
        output[at] = lent_at(at);
}

/* Nothing is written but the headers of the ports that took an entry. */
static void check_the_rest(const plain_verdict *verdict)
{
    for (uint32_t at = 0; at < sizeof output; at++)
        if (at % PLAIN_HEADER_MOST >=
            plain_header_octets(verdict, at / PLAIN_HEADER_MOST))
            CHECK_EQUAL(output[at], lent_at(at));
}

/* Only a call that 16, 17, 21 or 29 refuses accepts no second. */
static bool accepts(plain_refusal refusal)
{
    return refusal != PLAIN_NO_PORT && refusal != PLAIN_NO_ROOM &&
           refusal != PLAIN_SET_NUMBER && refusal != PLAIN_SECOND_PAST;
}

static plain_verdict receive(uint32_t arrival, uint16_t slot, size_t count)
{
    uint32_t last = relay.mission.last_second;
    plain_slot number = {slot};
    plain_verdict verdict;

    lend_output();
    verdict = plain_receive(&view, arrival, number, now, octets, count,
                            output, PLAIN_OUTPUT_ROOM);
    CHECK_EQUAL(relay.mission.last_second,
                accepts(verdict.refusal) ? now : last);
    CHECK_EQUAL(verdict.arriving_octets > 0, verdict.refusal == PLAIN_GOOD);
    CHECK_EQUAL(verdict.onward == PLAIN_ONWARD_SENT, verdict.took.bits != 0);
    CHECK_EQUAL(verdict.took.bits & verdict.dropped.bits, 0);
    check_the_rest(&verdict);
    return verdict;
}

#endif
