/*
 * batch_calls.c: many datagrams in one call as a C program sees them: each
 * cause of 27 alone and at its edge, which must leave all that is lent as it
 * was; what is good at the same edge; and every answer, every octet of the
 * output and all words against single calls on a copy of the state.
 *
 * The lists, the octets, the answers and the output stand in one structure with
 * guards between them. What a call is to leave is put into a copy of it, and
 * then both are compared whole.
 *
 * The awkward case is a sum of lengths over 32 bits, which must not pass for
 * the small one that is left of it.
 */
#define RECORDS HJ_ROUTES
#include "routed.h"

#define GUARD 16
#define LISTED 70
#define OCTETS 2000
#define ROOM (LISTED * HJ_OUTPUT_ROOM)

static hj_board board_before;
static hj_mission before;
static hj_record routes_before[HJ_ROUTES + 1];

static struct lent {
    hj_verdict answers_guard[GUARD];
    hj_verdict answers[LISTED];
    uint32_t lengths_guard[GUARD];
    uint32_t lengths[LISTED];
    uint32_t ports_guard[GUARD];
    uint32_t ports[LISTED];
    uint32_t seconds_guard[GUARD];
    uint32_t seconds[LISTED];
    uint16_t slots_guard[GUARD];
    uint16_t slots[LISTED];
    uint8_t octets_guard[GUARD];
    uint8_t octets[OCTETS];
    uint8_t output_guard[GUARD];
    uint8_t output[ROOM];
    uint8_t end[GUARD];
} lent, due;

/* What the next call is lent of these. */
static struct {
    size_t lengths, ports, slots, seconds, answers, octets, room;
} count;

static void set_up(void)
{
    set_up_routed(8191);
}

/* ---- Items --------------------------------------------------------------- */

#define BY_3 "200d1a410a04090e0a0a0a0400"          /* rewritten */
#define BY_5 "200d1a410a0409100a0a0a0400"          /* kept */
#define NO_ROUTE "200d1a41c00002010a0a0a0400"
#define FOR_US "200d1a410a0a0a020a0a0a0400"
#define FLOOD "20106a4b0a0408020a0a0a043c010203"
#define BROADCAST "20061a40ff04"                   /* in two forms */
#define INVALID "200d1a410a0409fe0a0a0a0400"
#define NONE ""

/* No item, and nothing is touched. */
static void begin(void)
{
    memset(&lent, UNTOUCHED, sizeof lent);
    memset(&count, 0, sizeof count);
}

/* An item more, with what it needs. */
static void add(uint32_t port, uint32_t second, const char *digits)
{
    size_t item = count.lengths;
    size_t length = octets_of(digits, lent.octets + count.octets);

    lent.lengths[item] = (uint32_t)length;
    lent.ports[item] = port;
    lent.slots[item] = (uint16_t)(100 + item);
    lent.seconds[item] = second;
    count.octets += length;
    count.room += HJ_OUTPUT_ROOM;
    count.lengths = item + 1;
    count.ports = count.slots = count.seconds = count.answers = item + 1;
}

static void add_many(size_t items, const char *digits)
{
    for (size_t i = 0; i < items; i++)
        add(0, 7, digits);
}

/* All that is lent is due as it is now. */
static void remember(void)
{
    due = lent;
    before = mission;
    board_before = board;
    memcpy(routes_before, routes, sizeof routes);
}

/* The call, with a list of so many records, on so many words. */
static uint32_t call_with(size_t board_words, size_t mission_words,
                          size_t records)
{
    remember();
    return hj_receive_many(
        &board, board_words, &mission, mission_words, routes, records,
        lent.lengths, count.lengths, lent.ports, count.ports, lent.slots,
        count.slots, lent.seconds, count.seconds, lent.octets, count.octets,
        lent.answers, count.answers, lent.output, count.room);
}

static uint32_t call(void)
{
    return call_with(HJ_BOARD_WORDS, HJ_MISSION_WORDS, HJ_ROUTES);
}

/* ---- What is due --------------------------------------------------------- */

/* All that is lent is as it is due, and the words are these. */
static void expect_left(const hj_mission *words, const char *what)
{
    expect(memcmp(&lent, &due, sizeof lent) == 0, what);
    expect(memcmp(&mission, words, sizeof mission) == 0, what);
    expect(memcmp(&board, &board_before, sizeof board) == 0, what);
    expect(memcmp(routes, routes_before, sizeof routes) == 0, what);
}

static void expect_refused_with(uint32_t number, size_t board_words,
                                size_t mission_words, size_t records,
                                const char *what)
{
    expect(call_with(board_words, mission_words, records) == number, what);
    expect_left(&before, what);
}

static void expect_refused(const char *what)
{
    expect_refused_with(HJ_BAD_BATCH, HJ_BOARD_WORDS, HJ_MISSION_WORDS,
                        HJ_ROUTES, what);
}

/* The call is done, and leaves what single calls leave. */
static void expect_singles(const char *what)
{
    static hj_mission alone;
    uint32_t number = call();
    const uint8_t *from = due.octets;

    alone = before;
    expect(number == HJ_DONE, what);
    for (size_t i = 0; i < count.lengths; i++) {
        due.answers[i] = hj_receive_at(
            BOARD, &alone, HJ_MISSION_WORDS, ROUTES, due.ports[i],
            due.slots[i], due.seconds[i], from, due.lengths[i],
            due.output + HJ_OUTPUT_ROOM * i, HJ_OUTPUT_ROOM);
        from += due.lengths[i];
    }
    expect_left(&alone, what);
}

static void expect_ended(size_t item, uint32_t number, const char *what)
{
    expect(hj_ended_by(lent.answers[item]) == number, what);
}

/* ---- 27 ------------------------------------------------------------------ */

static void begin_two(void)
{
    begin();
    add(0, 9, BY_3);
    add(0, 9, FLOOD);
}

/* One number more and one less of each list, the other lists as they were. */
static void unequal_lists(void)
{
    size_t *const lists[] = {&count.lengths, &count.ports, &count.slots,
                             &count.seconds, &count.answers};

    for (size_t i = 0; i < sizeof lists / sizeof *lists; i++) {
        begin_two();
        lent.lengths[2] = 0;
        count.room += HJ_OUTPUT_ROOM;
        --*lists[i];
        expect_refused("27, a list one shorter");
        *lists[i] += 2;
        expect_refused("27, a list one longer");
        *lists[i] = 0;
        expect_refused("27, an empty list beside others");
        begin();
        count.room = HJ_OUTPUT_ROOM;
        lent.lengths[0] = 0;
        *lists[i] = 1;
        expect_refused("27, a list beside empty ones");
    }
    begin_two();
    expect_singles("0, equal lists");
}

static void sums(void)
{
    begin_two();
    count.octets--;
    expect_refused("27, an octet is missing");
    count.octets++;
    lent.lengths[0]++;
    expect_refused("27, a length one over");
    lent.lengths[0]--;
    lent.lengths[1]++;
    expect_refused("27, the last length one over");
    count.octets++;
    expect_singles("0, the octet that it needs");
    begin_two();
    count.octets = 0;
    expect_refused("27, no octets");
    begin();
    add(0, 9, NONE);
    lent.lengths[0] = 1;
    expect_refused("27, one octet of none");
}

/* Modulo 2^32 each of these would fit. */
static void wrapped_sums(void)
{
    static const uint32_t LENGTHS[][4] = {{0xffffffff, 1, 13, 16},
                                          {0xffffffff, 0xffffffff, 2, 0},
                                          {0x80000000, 0x80000000, 13, 16},
                                          {13, 0x80000010, 16, 0x7fffffe0},
                                          {0x40000000, 0x40000000, 0x40000000,
                                           0x40000000},
                                          {0xffffffff, 0, 0, 0},
                                          {0, 0, 0, 0xffffffff}};

    for (size_t i = 0; i < sizeof LENGTHS / sizeof *LENGTHS; i++) {
        begin();
        add(0, 9, BY_3);
        add(0, 9, FLOOD);
        add(0, 9, BY_5);
        add(0, 9, NO_ROUTE);
        memcpy(lent.lengths, LENGTHS[i], sizeof LENGTHS[i]);
        expect_refused("27, a sum over 32 bits");
    }
}

/* As many lengths of all ones as there may be. */
static void greatest_sum(void)
{
    begin();
    add_many(HJ_MOST_ITEMS, NONE);
    for (size_t i = 0; i < HJ_MOST_ITEMS; i++)
        lent.lengths[i] = 0xffffffff;
    count.octets = OCTETS;
    expect_refused("27, the greatest sum");
}

static void rooms(void)
{
    begin_two();
    count.room = 2 * HJ_OUTPUT_ROOM - 1;
    expect_refused("27, room one octet short");
    count.room = HJ_OUTPUT_ROOM;
    expect_refused("27, room for one of two");
    count.room = 0;
    expect_refused("27, no room");
    count.room = 2 * HJ_OUTPUT_ROOM + 1;
    expect_singles("0, an octet of room more");
    begin();
    add(0, 9, NONE);
    count.room = HJ_OUTPUT_ROOM - 1;
    expect_refused("27, room one octet short for an item of no octets");
}

static void numbers_of_items(void)
{
    begin();
    add_many(HJ_MOST_ITEMS + 1, BY_5);
    expect_refused("27, 65 items");
    begin();
    add_many(HJ_MOST_ITEMS + 1, NONE);
    expect_refused("27, 65 items of no octets");
    begin();
    add_many(HJ_MOST_ITEMS, BY_5);
    expect_singles("0, 64 items");
    set_up();
    begin();
    add_many(HJ_MOST_ITEMS, NONE);
    expect_singles("0, 64 items of no octets");
    expect(counter(HJ_IN_RECEIVES) == 64 && counter(HJ_IN_BAD_LENGTH) == 64,
           "64 items are 64 receipts");
}

/* No second was accepted by any of them. */
static void refusals(void)
{
    static hj_mission fresh;

    set_up();
    fresh = mission;
    wrapped_sums();
    greatest_sum();
    expect(memcmp(&fresh, &mission, sizeof fresh) == 0,
           "27 leaves a fresh one");
    unequal_lists();
    set_up();
    sums();
    set_up();
    rooms();
    set_up();
    numbers_of_items();
}

/* ---- 21, and words of the wrong number ----------------------------------- */

static void long_list(void)
{
    begin_two();
    expect_refused_with(HJ_BAD_NUMBER, HJ_BOARD_WORDS, HJ_MISSION_WORDS,
                        HJ_ROUTES + 1, "21, 513 records");
    expect_refused_with(HJ_BAD_NUMBER, 0, 0, HJ_ROUTES + 1,
                        "21 before the words");
    count.room = 0;
    expect_refused_with(HJ_BAD_NUMBER, HJ_BOARD_WORDS, HJ_MISSION_WORDS,
                        HJ_ROUTES + 1, "21 before 27");
    begin();
    expect_refused_with(HJ_BAD_NUMBER, HJ_BOARD_WORDS, HJ_MISSION_WORDS,
                        HJ_ROUTES + 1, "21 of no item");
}

static void wrong_words(void)
{
    static const struct {
        size_t board_words, mission_words;
    } WRONG[] = {{HJ_BOARD_WORDS - 1, HJ_MISSION_WORDS},
                 {HJ_BOARD_WORDS, HJ_MISSION_WORDS - 1},
                 {0, 0}};

    for (size_t i = 0; i < sizeof WRONG / sizeof *WRONG; i++) {
        begin_two();
        expect(call_with(WRONG[i].board_words, WRONG[i].mission_words,
                         HJ_ROUTES) == HJ_DONE,
               "0 with wrong words");
        due.answers[0] = due.answers[1] = HJ_NO_PORT;
        expect_left(&before, "each item 16 with wrong words");
        count.room--;
        expect_refused_with(HJ_BAD_BATCH, WRONG[i].board_words,
                            WRONG[i].mission_words, HJ_ROUTES,
                            "27 with wrong words");
    }
}

static void no_item(void)
{
    begin();
    expect_singles("0, no item");
    count.room = HJ_OUTPUT_ROOM;
    count.octets = 10;
    expect_singles("0, no item, octets and room");
    remember();
    expect(hj_receive_many(BOARD, MISSION, NULL, 0, NULL, 0, NULL, 0, NULL, 0,
                           NULL, 0, NULL, 0, NULL, 0, NULL, 0) == HJ_DONE,
           "0, null pointers");
    expect_left(&before, "null pointers leave all");
}

/* ---- What items do ------------------------------------------------------- */

/* Each refusal between two that are sent on. */
static void refused_between(void)
{
    static const struct {
        uint32_t number, port, second;
        const char *octets;
    } REFUSED[] = {{HJ_NO_PORT, 8, 9, BY_5},
                   {HJ_NO_PORT, 0xffffffff, 9, BY_5},
                   {HJ_NO_PORT, 1, 9, BY_5},
                   {HJ_NO_PORT, 4, 9, BY_5},
                   {HJ_SECOND_PAST, 0, 6, BY_5},
                   {HJ_NO_PORT, 8, 7, NONE},
                   {HJ_SECOND_PAST, 0, 6, NONE},
                   {HJ_SHORT, 0, 7, NONE},
                   {HJ_SHORT, 0, 7, "2000"},
                   {HJ_BAD_VERSION, 0, 7, "40001200"},
                   {HJ_BAD_LENGTH, 0, 7, "200e1a410a0409100a0a0a0400"},
                   {HJ_BAD_FORM, 0, 7, "200d1e410a0409100a0a0a0400"},
                   {HJ_BAD_CHECKSUM, 0, 7, "200f1b610a04090e0a0a0a04405d6e"},
                   {HJ_NOT_CARRIED, 0, 7, "20106a4b0a0408020a0a0a0434010203"},
                   {HJ_BAD_ADDRESS, 0, 7, INVALID},
                   {HJ_FLOOD_UNMARKED, 0, 7, "200d6a430a0408020a0a0a043c"}};

    for (size_t i = 0; i < sizeof REFUSED / sizeof *REFUSED; i++) {
        set_up();
        begin();
        add(0, 7, BY_3);
        add(REFUSED[i].port, REFUSED[i].second, REFUSED[i].octets);
        add(0, 7, BY_5);
        expect_singles("a refused item between two");
        expect_ended(1, REFUSED[i].number, "its number");
        expect(hj_took(lent.answers[0]) == 8 && hj_took(lent.answers[2]) == 32,
               "and the next goes on");
    }
}

/* Second 9 of an item refused by 16 is not accepted, and 7 after it is. */
static void seconds(void)
{
    set_up();
    begin();
    add(0, 5, BY_5);
    add(8, 9, BY_5);
    add(0, 7, NONE);
    add(0, 6, BY_5);
    add(0, 7, BY_5);
    expect_singles("seconds");
    expect_ended(1, HJ_NO_PORT, "16");
    expect_ended(2, HJ_SHORT, "1, its second accepted");
    expect_ended(3, HJ_SECOND_PAST, "29 by an item before");
    expect_ended(4, HJ_DONE, "the same second again");
    expect(hj_value(hj_last_second(MISSION)) == 7, "the last second");
    expect(counter(HJ_IN_RECEIVES) == 3, "16 and 29 count nothing");
}

static void floods(void)
{
    set_up();
    begin();
    add(0, 1, FLOOD);
    add(0, 2, FLOOD);
    add(5, 3, FLOOD);
    expect_singles("a flood three times");
    expect(hj_onward(lent.answers[0]) == HJ_SENT_ON &&
               hj_onward(lent.answers[1]) == HJ_NOT_ASKED &&
               hj_onward(lent.answers[2]) == HJ_NOT_ASKED,
           "held from the second item on");
    expect(hj_get_pair(MISSION, 0).second == 1 &&
               hj_get_pair(MISSION, 1).format == HJ_STAMP_NONE,
           "one pair, of the first");
}

/* 32 entries wait, the 33rd is dropped, and another port goes on. */
static void full_queue(void)
{
    set_up();
    begin();
    add_many(HJ_QUEUE + 1, BY_3);
    add(0, 7, BY_5);
    expect_singles("a queue fills");
    expect(hj_onward(lent.answers[HJ_QUEUE - 1]) == HJ_SENT_ON &&
               hj_onward(lent.answers[HJ_QUEUE]) == HJ_QUEUES_FULL &&
               hj_onward(lent.answers[HJ_QUEUE + 1]) == HJ_SENT_ON,
           "15 by the items before");
    expect(hj_slot(hj_take(BOARD, MISSION, 3)) == 100 &&
               hj_slot(hj_take(BOARD, MISSION, 5)) == 100 + HJ_QUEUE + 1,
           "each with its own slot");
}

/* One address again and again, others and refused ones between. */
static void same_address(void)
{
    static const char *const ORDER[] = {
        BY_5, BY_5, FOR_US, BY_5, INVALID, BY_5, BY_3, BY_5, NO_ROUTE,
        NO_ROUTE, BY_5, NO_ROUTE, FLOOD, NO_ROUTE, BROADCAST, BY_3, BY_3};

    set_up();
    begin();
    for (size_t i = 0; i < sizeof ORDER / sizeof *ORDER; i++)
        add(0, 7, ORDER[i]);
    expect_singles("addresses that come again");
    set_route(2, 0, 0, 3, HJ_CAPABLE_CHECKSUM);
    hj_clear_route(ROUTES, 1);
    expect_singles("and other routes in the next call");
}

/* Where each header stands, and that nothing else is written, which
 * expect_singles says. */
static void places_of_headers(void)
{
    static const uint8_t KEPT[] = {0x20, 0x06, 0x1a, 0x40, 0xff, 0x04};
    static const uint8_t REWRITTEN[] = {0x20, 0x10, 0x1b, 0x61, 0x0a, 0x04};

    set_up();
    begin();
    add(0, 7, INVALID);
    add(0, 7, BROADCAST);
    add(0, 7, BY_3);
    expect_singles("headers of items");
    expect(memcmp(lent.output + 400 + 250, KEPT, sizeof KEPT) == 0,
           "item 1, port 5");
    expect(memcmp(lent.output + 800 + 150, REWRITTEN, sizeof REWRITTEN) == 0,
           "item 2, port 3");
    expect(hj_header(hj_item_output(lent.output, 2), 3) ==
               lent.output + 800 + 150,
           "hj_item_output");
}

/* Octets beyond the lengths, which would be good items, are ignored. */
static void octets_beyond(void)
{
    set_up();
    begin();
    add(0, 7, BY_3);
    count.octets += octets_of(BY_5, lent.octets + count.octets);
    expect_singles("octets beyond the sum");
    expect(counter(HJ_IN_RECEIVES) == 1, "one receipt");
}

/* Of the other mission, and with a list that is shorter. */
static void other_relays(void)
{
    set_up();
    expect(hj_fresh_mission(MISSION, 1) == HJ_DONE, "mission 1");
    begin();
    add(0, 7, FOR_US);
    add(4, 7, "200d1a410a0a0c020a0a0c0400");
    expect_singles("the other mission");
    expect_ended(0, HJ_NO_PORT, "its port is another");
    expect(hj_local(lent.answers[1]) == HJ_DELIVERED, "delivered");
    set_up();
    begin();
    add(0, 7, BY_5);
    expect(call_with(HJ_BOARD_WORDS, HJ_MISSION_WORDS, 1) == HJ_DONE &&
               hj_onward(lent.answers[0]) == HJ_NO_ROUTE,
           "a list of one record");
    expect(call_with(HJ_BOARD_WORDS, HJ_MISSION_WORDS, 2) == HJ_DONE &&
               hj_onward(lent.answers[0]) == HJ_SENT_ON,
           "a list of two");
}

/* ---- hj_batch ------------------------------------------------------------ */

static hj_batch batch, batch_before;

static uint32_t receive_batch(size_t records, size_t octets)
{
    remember();
    batch_before = batch;
    return hj_receive_batch(BOARD, MISSION, routes, records, &batch,
                            lent.octets, octets);
}

static void expect_batch_refused(uint32_t number, size_t records,
                                 size_t octets, const char *what)
{
    expect(receive_batch(records, octets) == number, what);
    expect(memcmp(&batch, &batch_before, sizeof batch) == 0, what);
    expect_left(&before, what);
}

/* An empty batch, and nothing else of it is touched. */
static void begin_batch(void)
{
    memset(&batch, UNTOUCHED, sizeof batch);
    batch.items = 0;
}

/* The lists of a batch, its answers and its output, to the last item that it
 * could have, are those that were lent by themselves. */
static void expect_as_lists(void)
{
    expect(memcmp(batch.lengths, lent.lengths, sizeof batch.lengths) == 0 &&
               memcmp(batch.ports, lent.ports, sizeof batch.ports) == 0 &&
               memcmp(batch.slots, lent.slots, sizeof batch.slots) == 0 &&
               memcmp(batch.seconds, lent.seconds, sizeof batch.seconds) == 0,
           "the lists of a batch");
    expect(memcmp(batch.answers, lent.answers, sizeof batch.answers) == 0,
           "its answers");
    expect(memcmp(batch.output, lent.output, sizeof batch.output) == 0,
           "its output");
}

/* The same as the lists that are in it. */
static void batches(void)
{
    static const hj_arrival ARRIVALS[] = {{0, 100, 7}, {0, 101, 8}};
    static hj_mission after;
    size_t first = strlen(BY_3) / 2;
    size_t octets;

    set_up();
    begin();
    add(0, 7, BY_3);
    add(0, 8, BY_5);
    octets = count.octets;
    begin_batch();
    expect(hj_batch_add(&batch, ARRIVALS[0], (uint32_t)first) == HJ_DONE &&
               hj_batch_add(&batch, ARRIVALS[1],
                            (uint32_t)(octets - first)) == HJ_DONE &&
               batch.items == 2,
           "two items added");
    expect(receive_batch(HJ_ROUTES, octets) == HJ_DONE, "a batch");
    after = mission;
    set_up();
    expect(call() == HJ_DONE && memcmp(&mission, &after, sizeof mission) == 0,
           "the words of a batch");
    expect_as_lists();
}

static void batch_limits(void)
{
    static const hj_arrival ARRIVAL = {0, 1, 7};

    set_up();
    begin();
    begin_batch();
    expect(receive_batch(HJ_ROUTES, 0) == HJ_DONE, "an empty batch");
    for (int i = 0; i < HJ_MOST_ITEMS; i++)
        expect(hj_batch_add(&batch, ARRIVAL, 1) == HJ_DONE, "an item added");
    expect(hj_batch_add(&batch, ARRIVAL, 1) == HJ_BAD_BATCH &&
               batch.items == HJ_MOST_ITEMS,
           "the 65th is not");
    expect_batch_refused(HJ_BAD_BATCH, HJ_ROUTES, HJ_MOST_ITEMS - 1,
                         "27, an octet is missing");
    expect_batch_refused(HJ_BAD_NUMBER, HJ_ROUTES + 1, HJ_MOST_ITEMS,
                         "21 of a batch");
    expect(receive_batch(HJ_ROUTES, HJ_MOST_ITEMS) == HJ_DONE &&
               batch.answers[HJ_MOST_ITEMS - 1] == HJ_SHORT,
           "64 items of a batch");
    batch.items = HJ_MOST_ITEMS + 1;
    expect_batch_refused(HJ_BAD_BATCH, HJ_ROUTES, OCTETS,
                         "27, items said that a batch cannot have");
    batch.items = SIZE_MAX;
    expect_batch_refused(HJ_BAD_BATCH, HJ_ROUTES, OCTETS,
                         "27, the most that can be said");
    expect_batch_refused(HJ_BAD_NUMBER, HJ_ROUTES + 1, OCTETS,
                         "21 before that");
}

int main(void)
{
    refusals();
    set_up();
    long_list();
    wrong_words();
    no_item();
    refused_between();
    seconds();
    floods();
    full_queue();
    same_address();
    places_of_headers();
    octets_beyond();
    other_relays();
    batches();
    batch_limits();
    return expect_end("batch_calls");
}
