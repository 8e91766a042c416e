/*
 * Cases of page 02, W-201, that a trace does not show: the verdicts lent, which
 * count as one of the lists; that a call refused by 21 or 27 changes nothing at
 * all; and batches drawn at random, which must do what the same datagrams do one
 * by one. The cases one by one stand in batch.trace.
 *
 * The awkward case is an octet of one item's output that another item's call
 * wrote. So each octet lent is known, and the whole output is looked at.
 */
#include <string.h>

#include "plain_bed.h"
#include "plain_header.h"

enum {
    HERE = 0x0a0a0a02,  /* port 0 */
    NEAR = 0x0a0a0a06,  /* port 1, in the same domain */
    FAR = 0x0a0a0b02,   /* port 2, in another */
    GROUP = 0x0a0a0a0f,
    PATH = 0x0a0a0a10,
    MOST = PLAIN_BATCH_MOST,
    ROOM = PLAIN_OUTPUT_ROOM * MOST,
    GUARD = 8,
    ITEM_OCTETS = 110, /* of a drawn item, at most */
    BATCHES = 5000
};

/* Lists, octets and room with one more than a batch may have. */
static struct {
    uint32_t lengths[MOST + 1];
    uint32_t ports[MOST + 1];
    plain_slot slots[MOST + 1];
    uint32_t seconds[MOST + 1];
    uint8_t octets[ITEM_OCTETS * MOST];
} drawn;

/* What a batch gave, or the same datagrams one by one. */
typedef struct {
    plain_verdict verdicts[MOST + 1];
    uint8_t output[ROOM + PLAIN_OUTPUT_ROOM + GUARD];
    plain_mission mission;
} outcome;

static outcome singly;
static outcome at_once;

/* All that a batch of so many items needs. */
static plain_batch batch_of(size_t count)
{
    plain_batch batch = {drawn.lengths, count, drawn.ports, count,
                         drawn.slots, count, drawn.seconds, count,
                         drawn.octets, 0};

    for (size_t at = 0; at < count; at++)
        batch.octet_count += drawn.lengths[at];
    return batch;
}

static void lend(outcome *lent)
{
    memset(lent->verdicts, 0xa5, sizeof lent->verdicts);
    for (uint32_t at = 0; at < sizeof lent->output; at++)
        lent->output[at] = lent_at(at);
}

static plain_refusal receive_batch(const plain_view *seen, plain_batch batch,
                                   size_t verdict_count, size_t room)
{
    lend(&at_once);
    return plain_receive_many(seen, &batch, at_once.verdicts, verdict_count,
                              at_once.output, room);
}

static void check_output(const outcome *due)
{
    CHECK_EQUAL(memcmp(at_once.verdicts, due->verdicts, sizeof due->verdicts),
                0);
    CHECK_EQUAL(memcmp(at_once.output, due->output, sizeof due->output), 0);
}

/* Refused, with nothing changed and nothing written. */
static void check_refused(const plain_view *seen, plain_batch batch,
                          size_t verdict_count, size_t room,
                          plain_refusal due)
{
    uint8_t before[sizeof relay];

    memcpy(before, &relay, sizeof relay);
    lend(&singly);
    CHECK_EQUAL(receive_batch(seen, batch, verdict_count, room), due);
    CHECK_EQUAL(memcmp(before, &relay, sizeof relay), 0);
    check_output(&singly);
}

static void check_unfit(plain_batch batch, size_t verdict_count, size_t room)
{
    check_refused(&view, batch, verdict_count, room, PLAIN_BATCH_UNFIT);
}

static void fresh_router(void)
{
    plain_record far = {1, {0x0a040900}, {net24}, 2, PLAIN_UP, 4, 0};
    plain_record back = {1, {0x0a040a00}, {net24}, 0, PLAIN_UP, 0, 0};

    fresh();
    CHECK_EQUAL(plain_set_router(&relay.board, 1), 0);
    CHECK_EQUAL(set_port(0, HERE, net24, 60), 0);
    CHECK_EQUAL(set_port(1, NEAR, net24, 8191), 0);
    CHECK_EQUAL(set_port(2, FAR, net24, 8191), 0);
    CHECK_EQUAL(plain_set_route(&relay.board, list, 0, &far), 0);
    CHECK_EQUAL(plain_set_route(&relay.board, list, 1, &back), 0);
    CHECK_EQUAL(set_group(0, GROUP, 7, 1), 0);
    CHECK_EQUAL(set_path(0, PATH, 6, 1), 0);
}

/* Items of three octets, none of which is a datagram. */
static void draw_short_items(void)
{
    memset(&drawn, 0, sizeof drawn);
    for (size_t at = 0; at <= MOST; at++) {
        drawn.lengths[at] = 3;
        drawn.seconds[at] = 9;
    }
}

/* One item more or fewer in one of the lists. */
static void test_unequal_lists(void)
{
    for (size_t count = 0; count <= MOST; count++) {
        plain_batch fit = batch_of(count);

        for (int list_at = 0; list_at < 5; list_at++)
            for (int more = 0; more <= 1; more++) {
                plain_batch batch = fit;
                size_t verdict_count = count;
                size_t *counts[] = {&batch.length_count, &batch.port_count,
                                    &batch.slot_count, &batch.second_count,
                                    &verdict_count};

                if (!more && count == 0)
                    continue;
                *counts[list_at] = more ? count + 1 : count - 1;
                batch.octet_count = sizeof drawn.octets;
                check_unfit(batch, verdict_count, sizeof at_once.output);
            }
    }
}

static void test_sum_and_room(void)
{
    for (size_t count = 1; count <= MOST; count++) {
        plain_batch batch = batch_of(count);
        size_t room = PLAIN_OUTPUT_ROOM * count;

        check_unfit(batch, count, room - 1);
        check_unfit(batch, count, 0);
        batch.octet_count--;
        check_unfit(batch, count, room);
        batch.octet_count = 0;
        check_unfit(batch, count, room);
    }
    check_unfit(batch_of(MOST + 1), MOST + 1, ROOM + PLAIN_OUTPUT_ROOM);
}

/* Lengths whose sum is no more than what is lent if 32 bits wrap it. */
static void test_sum_does_not_wrap(void)
{
    plain_batch batch = batch_of(2);

    drawn.lengths[0] = UINT32_MAX;
    for (uint32_t length = 1; length <= 7; length++) {
        drawn.lengths[1] = length;
        check_unfit(batch, 2, ROOM);
    }
    for (size_t at = 0; at < MOST; at++)
        drawn.lengths[at] = (uint32_t)1 << 26;
    batch = batch_of(MOST);
    batch.octet_count = 0;
    check_unfit(batch, MOST, ROOM);
}

/* 21 comes before 27, and without any item too. */
static void test_long_list(void)
{
    plain_view long_list = view;

    long_list.routes.count = PLAIN_ROUTES + 1;
    check_refused(&long_list, batch_of(2), 2, ROOM, PLAIN_SET_NUMBER);
    check_refused(&long_list, batch_of(2), 1, 0, PLAIN_SET_NUMBER);
    check_refused(&long_list, batch_of(MOST + 1), 0, 0, PLAIN_SET_NUMBER);
    check_refused(&long_list, batch_of(0), 0, 0, PLAIN_SET_NUMBER);
}

static void test_no_item(void)
{
    static const plain_batch nothing;

    check_refused(&view, batch_of(0), 0, 0, PLAIN_GOOD);
    check_refused(&view, batch_of(0), 0, ROOM, PLAIN_GOOD);
    CHECK_EQUAL(plain_receive_many(&view, &nothing, NULL, 0, NULL, 0), 0);
}

static uint32_t random_below(uint32_t limit)
{
    static uint64_t state = 201;

    state = state * 6364136223846793005u + 1442695040888963407u;
    return (uint32_t)(state >> 33) % limit;
}

/* Of four octets; the last one alone is a one-octet address. */
static uint32_t draw_destination(void)
{
    static const uint32_t destinations[] = {
        HERE, NEAR, GROUP, PATH, 0x0a04090e, 0x0a04090e, 0x0a040a0e,
        0x0a040b0e, 0x0a0a0aff, 0x0a0a0afe, 0xffffffff};

    return destinations[random_below(sizeof destinations /
                                     sizeof *destinations)];
}

static plain_fields draw_fields(void)
{
    plain_fields fields = {.tp_id = random_below(16),
                           .extended = random_below(4) != 0,
                           .source_present = random_below(8) != 0,
                           .basic_qos_present = random_below(2),
                           .hop_present = random_below(2),
                           .stamp_format = random_below(4) != 0,
                           .checksum_present = random_below(2)};
    uint32_t address = fields.extended ? UINT32_MAX : UINT8_MAX;

    fields.destination.low = draw_destination() & address;
    if (fields.source_present)
        fields.source.low = 0x0a0a0a04 & address;
    if (fields.basic_qos_present) {
        fields.precedence = random_below(16);
        fields.routing = random_below(2) * PLAIN_ROUTING_FLOOD;
    }
    if (fields.hop_present)
        fields.hop = random_below(5);
    if (fields.stamp_format != PLAIN_STAMP_NONE)
        fields.time = random_below(100);
    return fields;
}

/* A datagram, whole or cut or with one octet spoilt, or none; how long it is. */
static uint32_t draw_item(uint8_t *to)
{
    plain_fields fields = draw_fields();
    uint8_t header[PLAIN_HEADER_MOST];
    uint32_t data = random_below(ITEM_OCTETS - PLAIN_HEADER_MOST);
    uint32_t length = 0;

    CHECK_EQUAL(plain_header_build(&fields, data, header, sizeof header,
                                   &length), 0);
    memcpy(to, header, length);
    memset(to + length, 0, data);
    length += data;
    if (random_below(8) == 0)
        to[random_below(length)] ^= (uint8_t)(1 << random_below(8));
    if (random_below(8) == 0)
        length = random_below(length);
    return length;
}

/* The batch, with octets behind the last item that are none's. */
static plain_batch draw_batch(void)
{
    size_t count = random_below(MOST + 1);
    uint32_t latest = relay.mission.last_second;
    uint8_t *to = drawn.octets;
    plain_batch batch;

    for (size_t at = 0; at < count; at++) {
        drawn.lengths[at] = draw_item(to);
        to += drawn.lengths[at];
        drawn.ports[at] = random_below(8) != 0 ? random_below(3)
                                               : random_below(10);
        drawn.slots[at].number = (uint16_t)random_below(65536);
        latest += random_below(8) == 0;
        drawn.seconds[at] = latest > 0 && random_below(8) == 0 ? latest - 1
                                                               : latest;
    }
    batch = batch_of(count);
    batch.octet_count += random_below(3);
    return batch;
}

static uint32_t seen_refusals[40];
static uint32_t seen_onward[40];

/* The datagrams of the batch one by one. */
static void receive_singly(const plain_batch *batch)
{
    const uint8_t *from = batch->octets;

    lend(&singly);
    for (size_t at = 0; at < batch->length_count; at++) {
        plain_verdict *verdict = &singly.verdicts[at];
        uint8_t *to = singly.output + PLAIN_OUTPUT_ROOM * at;

        memcpy(octets, from, batch->lengths[at]);
        from += batch->lengths[at];
        now = batch->seconds[at];
        *verdict = receive(batch->ports[at], batch->slots[at].number,
                           batch->lengths[at]);
        for (uint32_t port = 0; port < PLAIN_PORTS; port++)
            memcpy(to + plain_header_at(port), output + plain_header_at(port),
                   plain_header_octets(verdict, port));
        seen_refusals[verdict->refusal]++;
        seen_onward[verdict->onward]++;
    }
    memcpy(&singly.mission, &relay.mission, sizeof relay.mission);
}

/* Takes some entries, and now and then begins anew. */
static void pass_time(void)
{
    plain_entry entry;

    for (uint32_t port = 0; port < 3; port++)
        for (uint32_t left = random_below(9); left > 0; left--)
            plain_take(&view, port, &entry);
    if (random_below(8) == 0)
        fresh_router();
}

static void test_as_singly(void)
{
    static plain_mission before;

    fresh_router();
    for (uint32_t round = 0; round < BATCHES; round++) {
        plain_batch batch = draw_batch();
        size_t room = PLAIN_OUTPUT_ROOM * batch.length_count;

        memcpy(&before, &relay.mission, sizeof before);
        receive_singly(&batch);
        memcpy(&relay.mission, &before, sizeof before);
        CHECK_EQUAL(receive_batch(&view, batch, batch.length_count,
                                  room + random_below(2)), 0);
        check_output(&singly);
        CHECK_EQUAL(memcmp(&relay.mission, &singly.mission,
                           sizeof relay.mission), 0);
        pass_time();
    }
}

/* That the drawn datagrams came to every end. */
static void test_all_seen(void)
{
    static const uint32_t refusals[] = {0, 1, 2, 3, 4, 5, 6, 8, 16, 28, 29};
    static const uint32_t onward[] = {0, 1, 10, 11, 13, 14, 15, 30};

    for (size_t at = 0; at < sizeof refusals / sizeof *refusals; at++)
        CHECK_EQUAL(seen_refusals[refusals[at]] > 0, true);
    for (size_t at = 0; at < sizeof onward / sizeof *onward; at++)
        CHECK_EQUAL(seen_onward[onward[at]] > 0, true);
}

int main(void)
{
    fresh_router();
    draw_short_items();
    test_unequal_lists();
    test_sum_and_room();
    test_long_list();
    test_no_item();
    test_sum_does_not_wrap();
    test_as_singly();
    test_all_seen();
    return checks_report("test_batch");
}
