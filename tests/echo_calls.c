/*
 * echo_calls.c: echo requests, replies and messages as a C program sees them:
 * every part of each answer, every octet of the output and around it, and which
 * words a call changes. The requests and the replies that are due stand here as
 * octets, made by hand from 003 (3.2.2, 3.3.2 and 3.3.4.7).
 *
 * The awkward case is a reply as long as can be, which is made here: of 8,141
 * octets of user data nothing else can be shown.
 */
#include "routed.h"

#define GUARD 64
#define MOST_ROOM (HJ_MOST_LENGTH + 100)
#define MTU 100 /* of port 0, by which requests come */
#define SLOT 20

static hj_mission before;
static uint8_t space[GUARD + MOST_ROOM + GUARD];
static uint8_t due[sizeof space];
static uint8_t *const output = space + GUARD;

/* Four ways lead back: without anything added, with a checksum, to another
 * domain, and both of these. */
static void set_up(void)
{
    set_up_routed(MTU);
    set_route(2, 0x0a0a0a10, 0xffffffff, 5, HJ_CAPABLE_HOP_COUNT);
    set_route(3, 0x0a0a0a12, 0xffffffff, 3, HJ_CAPABLE_NONE);
    set_route(4, 0x0a0a0a14, 0xffffffff, 3, HJ_CAPABLE_CHECKSUM);
}

/* ---- One request --------------------------------------------------------- */

static hj_verdict echo_octets(uint32_t port, const uint8_t *octets,
                              size_t count, size_t room)
{
    memset(space, UNTOUCHED, sizeof space);
    memset(due, UNTOUCHED, sizeof due);
    before = mission;
    return hj_echo(BOARD, MISSION, ROUTES, port, SLOT, octets, count, output,
                   room);
}

static hj_verdict echo_by(uint32_t port, const char *request, size_t room)
{
    uint8_t octets[200];

    return echo_octets(port, octets, octets_of(request, octets), room);
}

static hj_verdict echo(const char *request)
{
    return echo_by(0, request, MTU);
}

/* What the call changed is at most what is due. */
static void expect_lent(const char *what)
{
    expect(memcmp(space, due, sizeof space) == 0, what);
    expect(memcmp(&before, &mission, sizeof before) == 0, what);
}

/* The whole answer of a reply that a port took. */
static hj_verdict sent(uint32_t port, size_t octets)
{
    return (hj_verdict)HJ_SENT_ON << 16 | (hj_verdict)1 << port << 24 |
           (hj_verdict)octets << 40;
}

/* One in npOutRequests, and the entry on the port, which is taken: nothing else
 * of the state is changed. */
static void expect_entry(uint32_t port, uint32_t precedence, const char *what)
{
    hj_answer taken;

    expect(counter(HJ_OUT_REQUESTS) == before.words[410] + 1, what);
    expect(hj_value(hj_waiting(MISSION, port)) == 1, what);
    taken = hj_take(BOARD, MISSION, port);
    expect(hj_refusal(taken) == HJ_DONE && hj_slot(taken) == SLOT &&
               hj_precedence(taken) == precedence,
           what);
    before.words[410]++;
    expect_lent(what);
}

/* The request is answered by this reply, which goes by the port. */
static void expect_reply(const char *request, const char *reply, uint32_t port,
                         uint32_t precedence, const char *what)
{
    hj_verdict verdict = echo_by(0, request, MTU + 8);
    size_t octets = octets_of(reply, due + GUARD);

    expect(verdict == sent(port, octets), what);
    expect(hj_ended_by(verdict) == HJ_DONE && hj_local(verdict) == 0 &&
               hj_onward(verdict) == HJ_SENT_ON &&
               hj_took(verdict) == 1u << port && hj_dropped(verdict) == 0 &&
               hj_reply_octets(verdict) == octets,
           what);
    expect_entry(port, precedence, what);
}

#define REQUEST "20171a610a0a0a020a0409100508008f93000100026869"
#define REPLY                                                                 \
    "20291a610a0409100a0a0a02400000922f0001000205000000000000000000000000640" \
    "00000006869"

static void check_reply(void)
{
    set_up();
    expect_reply(REQUEST, REPLY, 5, 0, "a reply");
    expect_reply("20171a610a0a0a020a04090e0508008f93000100026869",
                 "202b1b610a04090e0a0a0a02405d550000922f000100020500000000000"
                 "000000000000064000000006869",
                 3, 0, "a checksum that the route asks for");
    expect_reply(REQUEST "ffff", REPLY, 5, 0, "octets beyond the length");
    expect(hj_set_router(BOARD, 0) == HJ_DONE, "a host");
    expect_reply(REQUEST, REPLY, 5, 0, "a host's reply");
    expect(counter(HJ_OUT_REQUESTS) == 4 && counter(HJ_IN_RECEIVES) == 0 &&
               counter(HJ_IN_DELIVERS) == 0 && counter(HJ_FORW_DATAGRAMS) == 0,
           "replies alone are counted");
}

/* ---- What ends the call -------------------------------------------------- */

static void expect_refusal(hj_verdict verdict, uint32_t refusal,
                           const char *what)
{
    expect(verdict == refusal, what);
    expect_lent(what);
}

static void check_refusals(void)
{
    static hj_record many[HJ_ROUTES + 1];
    uint8_t octets[64];
    size_t count = octets_of(REQUEST, octets);

    set_up();
    expect_refusal(echo_by(0, REQUEST, MTU - 1), HJ_SHORT_OUTPUT, "17");
    expect_refusal(echo_by(0, "", 0), HJ_SHORT_OUTPUT, "17 of nothing");
    expect_refusal(echo_by(1, REQUEST, 0), HJ_NO_PORT, "16, not set up");
    expect_refusal(echo_by(4, REQUEST, 0), HJ_NO_PORT, "16, the other's");
    expect_refusal(echo_by(8, REQUEST, 0), HJ_NO_PORT, "16, over 7");
    expect(hj_echo(&board, HJ_BOARD_WORDS - 1, MISSION, ROUTES, 0, SLOT,
                   octets, count, output, MTU) == HJ_NO_PORT,
           "16, words of the board");
    expect(hj_echo(BOARD, &mission, HJ_MISSION_WORDS - 1, ROUTES, 0, SLOT,
                   octets, count, output, MTU) == HJ_NO_PORT,
           "16, words of the mission");
    expect(hj_echo(&board, 0, MISSION, many, HJ_ROUTES + 1, 9, SLOT, octets,
                   count, output, 0) == HJ_BAD_NUMBER,
           "21 before 16 and 17");
    expect_lent("no refusal changes anything");
}

/* ---- What gets no reply -------------------------------------------------- */

static const struct {
    const char *request, *what;
} NONE[] = {
    {"", "no octets"},
    {"40171a610a0a0a020a0409100508008f93000100026869", "2"},
    {"20171a610a0a0a020a0409100508008f930001000268", "3"},
    {"20171e610a0a0a020a0409100508008f93000100026869", "4"},
    {"20191b610a0a0a020a040910050000"
     "08008f93000100026869",
     "5"},
    {"20171a610a0a0a020a04090f0508008f93000100026869", "6"},
    {"20181a630a0a0a020a040910340508008f93000100026869", "8"},
    {"20181a630a0a0a020a0409103c0508008f93000100026869", "28"},
    {"20175a610a0a0a020a0409100508008f93000100026869", "another transport"},
    {"20291a610a0a0a020a040910050000922f00010002050000000000000000000000006"
     "4000000006869",
     "a reply"},
    {"20171a610a0a0a020a040910050d008a93000100026869", "type 13"},
    {"20171a610a0a0a020a0409100508018f92000100026869", "code 1"},
    {"20141a610a0a0a020a0409100508008f93000100", "7 octets of message"},
    {"200d1a610a0a0a020a04091005", "no message"},
    {"20171a610a0a0a020a0409100508008f92000100026869", "its checksum"},
    {"20141aa1100a0a0a230508008f93000100026869", "no source"},
    {"20161a410a0a0a020a04091008008f93000100026869", "no hop count"},
    {"201b1a6b0a0a0a020a0409103c0501020308008f93000100026869", "a flood"},
    {"20171a610a0408100a0409100508008f93000100026869", "not delivered"},
    {"20171a610a0a0c020a0409100508008f93000100026869", "the other mission's"},
    {"20171a61ffffffff0a0409100508008f93000100026869", "limited broadcast"},
    {"20171a610affffff0a0409100508008f93000100026869", "all SCPS"},
    {"20171a610a0a0aff0a0409100508008f93000100026869", "a broadcast of ours"},
    {"20181ae1100a0408ff0a0409100508008f93000100026869",
     "a broadcast of others, intermediate delivery"},
    {"20181ae110e00000010a0409100508008f93000100026869",
     "multicast, intermediate delivery"}};

static void check_none(void)
{
    set_up();
    for (size_t i = 0; i < sizeof NONE / sizeof *NONE; i++)
        expect_refusal(echo(NONE[i].request), 0, NONE[i].what);
    expect(counter(HJ_OUT_REQUESTS) == 0, "none is counted");
}

/* A port outside net 10 supplies no domain, though the octet is that of its own
 * address. */
static void check_no_domain(void)
{
    const char *request = "20111a6002100508008f93000100026869";

    set_up();
    expect(hj_set_port(BOARD, 6, 0xac100002, 0xffff0000, MTU, 0) == HJ_DONE,
           "a port outside net 10");
    expect_refusal(echo_by(6, request, MTU), 0, "7");
    expect(hj_onward(echo(request)) == HJ_SENT_ON, "answered in net 10");
}

/* By subscription, and not by intermediate delivery as above. */
static void check_subscribed(void)
{
    const char *request = "20171a61e00000010a0409100508008f93000100026869";
    const hj_arrival arrival = {0, SLOT, 0};
    uint8_t octets[64], headers[HJ_OUTPUT_ROOM];
    size_t count = octets_of(request, octets);

    set_up();
    expect(hj_set_group(BOARD, MISSION, 0, 0xe0000001, 0x20, 0x01) == HJ_DONE,
           "a group, subscribed on port 0");
    expect(hj_local(hj_receive(BOARD, MISSION, ROUTES, arrival, octets, count,
                               headers, sizeof headers)) == HJ_DELIVERED,
           "its datagram is delivered");
    expect_refusal(echo(request), 0, "and gets no reply");
}

/* 172.16.0.127 is a broadcast of port 0's subnet, and elsewhere a unit: none,
 * unless it is a port's own address. */
static void check_subnet(void)
{
    const char *request = "20181ae110ac10007f0a0409100508008f93000100026869";

    set_up();
    expect(hj_fresh_board(BOARD) == HJ_DONE &&
               hj_set_port(BOARD, 0, 0xac100001, 0xffffff80, MTU, 0) ==
                   HJ_DONE &&
               hj_set_port(BOARD, 5, 0x0a0a0a06, 0xffffff00, 8191, 0) ==
                   HJ_DONE,
           "a subnet of half a network");
    expect_refusal(echo(request), 0, "a broadcast of a subnet");
    expect(hj_set_port(BOARD, 6, 0xac10007f, 0xffff0000, MTU, 0) == HJ_DONE,
           "a port of that address");
    expect(hj_onward(echo(request)) == HJ_SENT_ON, "is answered");
}

/* Header of 13 octets and 26 of message: 39. */
static void check_small_mtu(void)
{
    set_up();
    expect(hj_fresh_board(BOARD) == HJ_DONE, "a fresh board");
    set_port_of(0, 0, 0x0a0a0a02, 38);
    set_port_of(0, 5, 0x0a0a0a06, 8191);
    expect_refusal(echo_by(0, REQUEST, 100), 0, "an MTU of 38");
    expect(hj_fresh_board(BOARD) == HJ_DONE, "a fresh board");
    set_port_of(0, 0, 0x0a0a0a02, 39);
    set_port_of(0, 5, 0x0a0a0a06, 8191);
    expect(hj_reply_octets(echo_by(0, REQUEST, 100)) == 39,
           "an MTU of 39: the fixed fields, and no data");
}

static void check_drop(void)
{
    hj_board as_it_was;

    set_up();
    expect(hj_get_echo_drop(BOARD) == 0, "off at first");
    expect(hj_set_echo_drop(BOARD, 1) == HJ_DONE &&
               hj_get_echo_drop(BOARD) == 1,
           "on");
    expect_refusal(echo(REQUEST), 0, "no reply while it is on");
    as_it_was = board;
    expect(hj_set_echo_drop(BOARD, 2) == HJ_BAD_CODE &&
               hj_set_echo_drop(BOARD, 0xffffffff) == HJ_BAD_CODE,
           "24, neither on nor off");
    expect(hj_set_echo_drop(&board, HJ_BOARD_WORDS - 1, 2) == HJ_BAD_NUMBER,
           "21 before 24");
    expect(hj_refusal(hj_get_echo_drop(&board, HJ_BOARD_WORDS + 1)) ==
               HJ_BAD_NUMBER,
           "21, told");
    expect(memcmp(&as_it_was, &board, sizeof board) == 0, "nothing changed");
    expect(hj_set_echo_drop(BOARD, 0) == HJ_DONE, "off again");
    expect_reply(REQUEST, REPLY, 5, 0, "answered again");
}

/* ---- What a reply says --------------------------------------------------- */

#define REPLY_OF_6(source)                                                    \
    "20291a610a040910" source                                                 \
    "400000922f000100020500000000000000000000000064000000006869"

static void check_addresses(void)
{
    set_up();
    expect_reply("20171a610a0a0b020a0409100508008f93000100026869",
                 REPLY_OF_6("0a0a0b02"), 5, 0, "from another port's address");
    expect_reply("20181ae1100a0408100a0409100508008f93000100026869",
                 REPLY_OF_6("0a0a0a02"), 5, 0,
                 "from the arrival port's, by intermediate delivery");
    expect_reply("20181ae1100a0a0c020a0409100508008f93000100026869",
                 REPLY_OF_6("0a0a0a02"), 5, 0,
                 "the other mission's address is no address of ours");
    expect_reply("20111a6002100508008f93000100026869",
                 "20231a601002400000922f00010002050000000000000000000000006400"
                 "0000006869",
                 5, 0, "one octet");
    expect_reply("20111a6006100508008f93000100026869",
                 "20231a601006400000922f00010002050000000000000000000000006400"
                 "0000006869",
                 5, 0, "one octet, from another port's address");
    expect_reply("20121ae01030100508008f93000100026869",
                 "20231a601002400000922f00010002050000000000000000000000006400"
                 "0000006869",
                 5, 0, "one octet, by intermediate delivery");
}

static void check_rewritten(void)
{
    set_up();
    expect_reply("20121a620212700508008f93000100026869",
                 "202a1a630a0a0a120a0a0a0270400000922f000100020500000000000000"
                 "000000000064000000006869",
                 3, 7, "four octets, to another domain");
    expect_reply("20111a6002140508008f93000100026869",
                 "202b1b610a0a0a140a0a0a02405c490000922f0001000205000000000000"
                 "00000000000064000000006869",
                 3, 0, "and a checksum");
}

static void check_elements(void)
{
    set_up();
    expect_reply("201c1be3200a0a0a020a0409109305077e3f08008f93000100026869",
                 "202a1a630a0409100a0a0a0290400000922f000100020500000000000000"
                 "000000000064000000006869",
                 5, 9, "the precedence alone; no expanded QOS, no checksum");
    expect_reply("20171a610a0a0a020a0409100008008f93000100026869",
                 "20291a610a0409100a0a0a02400000972f00010002000000000000000000"
                 "0000000064000000006869",
                 5, 0, "hop count 0");
    expect_reply("20171a610a0a0a020a040910ff08008f93000100026869",
                 "20291a610a0409100a0a0a02400000982e00010002ff0000000000000000"
                 "0000000064000000006869",
                 5, 0, "hop count 255");
    expect_reply("20151a610a0a0a020a040910050800f7fc00010002",
                 "20271a610a0409100a0a0a02400000fa9800010002050000000000000000"
                 "000000006400000000",
                 5, 0, "no data");
}

static void check_stamps(void)
{
    set_up();
    expect_reply("201a1a690a0a0a020a0409100501020308008f93000100026869",
                 "20291a610a0409100a0a0a02400000902a00010002050100000000000102"
                 "0300000064000000006869",
                 5, 0, "three octets");
    expect_reply("201e1a710a0a0a020a040910051e01020304050608008f930001000268"
                 "69",
                 "20291a610a0409100a0a0a024000008903000100020502001e0102030405"
                 "0600000064000000006869",
                 5, 0, "P-field and six octets");
    expect_reply("201f1a710a0a0a020a04091005ff0102030405060708008f9300010002"
                 "6869",
                 "20291a610a0409100a0a0a02400000871c000100020502ff010203040506"
                 "0700000064000000006869",
                 5, 0, "P-field and seven octets");
    expect_reply("201b1a790a0a0a020a040910050908070608008f93000100026869",
                 "20291a610a0409100a0a0a02400000821e00010002050300000000090807"
                 "0600000064000000006869",
                 5, 0, "binary");
}

/* ---- How long a reply is ------------------------------------------------- */

/* A request of NEAR, 10.4.9.16, or of FAR, 10.4.9.14, with so much data. */
#define NEAR 0x0a040910u
#define FAR 0x0a04090eu
static size_t long_request(uint32_t source, size_t data, uint8_t *octets)
{
    static uint8_t filler[HJ_MOST_LENGTH];
    hj_fields fields = {0};
    hj_answer header, message;

    for (size_t i = 0; i < data; i++)
        filler[i] = (uint8_t)(i % 251);
    fields.tp_id = HJ_TP_SCMP;
    fields.extended = 1;
    fields.destination_low = 0x0a0a0a02;
    fields.has_source = 1;
    fields.source_low = source;
    fields.has_hop_count = 1;
    fields.hop_count = 7;
    header = hj_build(fields, HJ_REQUEST_OCTETS + data, octets,
                      HJ_HEADER_ROOM);
    message = hj_build_request(3, 4, filler, data, octets + hj_value(header),
                               HJ_MOST_LENGTH);
    expect(hj_refusal(header) == HJ_DONE && hj_refusal(message) == HJ_DONE,
           "a long request");
    return hj_value(header) + hj_value(message);
}

/* What comes of it: octets of the reply, its data the front of what was asked.
 * 0 where none was sent. */
static void expect_octets(uint32_t source, size_t data, size_t room,
                          uint32_t octets, const char *what)
{
    static uint8_t request[HJ_MOST_LENGTH + HJ_HEADER_ROOM];
    size_t count = long_request(source, data, request);
    hj_verdict verdict = echo_octets(0, request, count, room);
    size_t header = source == FAR ? 15 : 13;
    hj_message message;

    expect(hj_reply_octets(verdict) == octets, what);
    if (octets == 0)
        return;
    expect(hj_read(output, octets).length == octets, what);
    expect(hj_read_echo(output + header, octets - header, &message) ==
                   HJ_DONE &&
               message.type == HJ_ECHO_REPLY && message.identifier == 3 &&
               message.sequence == 4 && message.hop_count == 7,
           what);
    expect(memcmp(output + header + HJ_REPLY_OCTETS,
                  request + 13 + HJ_REQUEST_OCTETS,
                  octets - header - HJ_REPLY_OCTETS) == 0,
           what);
    memcpy(due + GUARD, output, octets);
    expect(memcmp(space, due, sizeof space) == 0, what);
}

static void check_cut(void)
{
    set_up();
    expect_octets(NEAR, 60, MTU, 99, "60 octets of data");
    expect_octets(NEAR, 61, MTU, 100, "61, which fill the MTU");
    expect_octets(NEAR, 62, MTU, 100, "62, cut by one");
    expect_octets(NEAR, 5000, MTU, 100, "5000, cut");
    expect_octets(FAR, 59, MTU, 100, "59 and a checksum");
    expect_octets(FAR, 60, MTU, 0, "a checksum too much for the room");
    expect_octets(FAR, 60, MTU + 1, 101, "one octet more");
    expect_octets(FAR, 62, MTU + 1, 0, "cut, and one octet short");
    expect_octets(FAR, 62, MTU + 2, 102, "cut, and lengthened");
    expect(hj_fresh_board(BOARD) == HJ_DONE, "a fresh board");
    set_port_of(0, 0, 0x0a0a0a02, 8191);
    set_port_of(0, 5, 0x0a0a0a06, 8191);
    expect_octets(NEAR, 8115, 8191, 8154, "8,141 octets of user data");
    expect_octets(NEAR, 8116, 8191, 8154, "one more, cut");
    expect_octets(NEAR, 8133, 8191, 8154, "the longest that is built, cut");
}

/* ---- What becomes of a reply --------------------------------------------- */

/* A reply that no port took: counted, and nothing written. */
static void expect_unsent(hj_verdict verdict, hj_verdict told, uint32_t which,
                          const char *what)
{
    expect(verdict == told, what);
    before.words[393 + HJ_OUT_REQUESTS]++;
    before.words[393 + which]++;
    expect_lent(what);
}

static void check_unsent(void)
{
    set_up();
    expect_unsent(echo("20171a610a0a0a020a0408100508008f93000100026869"),
                  (hj_verdict)HJ_NO_ROUTE << 16, HJ_OUT_NO_ROUTES, "11");
    expect(hj_set_route(BOARD, ROUTES, 5, 0x0a040910, 0xffffffff, 5, HJ_DOWN,
                        0, 0) == HJ_DONE,
           "a route that is down");
    expect(hj_onward(echo(REQUEST)) == HJ_SENT_ON, "hides no other");
    expect(hj_fresh_board(BOARD) == HJ_DONE, "a fresh board");
    set_port_of(0, 0, 0x0a0a0a02, MTU);
    set_port_of(0, 5, 0x0a0a0a06, 40);
    expect_unsent(echo(REQUEST), (hj_verdict)HJ_TOO_BIG << 16,
                  HJ_TOO_BIG_COUNT, "14, one over the MTU of its port");
}

static void check_full(void)
{
    set_up();
    for (int i = 0; i < HJ_QUEUE; i++)
        expect(echo(REQUEST) == sent(5, 41), "an entry");
    expect_unsent(echo(REQUEST),
                  (hj_verdict)HJ_QUEUES_FULL << 16 | (hj_verdict)0x20 << 32,
                  HJ_OUT_DISCARDS, "15, dropped by port 5");
    expect(hj_refusal(hj_take(BOARD, MISSION, 5)) == HJ_DONE, "one taken");
    expect(echo(REQUEST) == sent(5, 41), "room again");
    expect(counter(HJ_OUT_REQUESTS) == 34 && counter(HJ_OUT_DISCARDS) == 1,
           "34 replies made, one dropped");
}

/* A reply to an address of ours takes the route line like any other, and what
 * is sent is no request. */
static void check_to_ourselves(void)
{
    uint8_t reply[HJ_MOST_LENGTH];
    uint32_t octets;

    set_up();
    set_route(6, 0x0a0a0b02, 0xffffffff, 0, HJ_CAPABLE_NONE);
    octets = hj_reply_octets(
        echo("20171a610a0a0a020a0a0b020508008f93000100026869"));
    expect(octets == 41 && hj_value(hj_waiting(MISSION, 0)) == 1,
           "to an address of ours, by its route");
    memcpy(reply, output, octets);
    expect_refusal(echo_octets(0, reply, octets, MTU), 0,
                   "a reply is not answered");
}

/* ---- Messages ------------------------------------------------------------ */

static void expect_words(const char *message, const uint32_t *words,
                         const char *what)
{
    uint32_t found[HJ_MESSAGE_WORDS] = {0};
    uint8_t octets[64];
    size_t count = octets_of(message, octets);
    hj_message read;

    expect(hj_read_echo_words(octets, count, found, HJ_MESSAGE_WORDS) ==
                   HJ_DONE &&
               memcmp(found, words, sizeof found) == 0,
           what);
    expect(hj_read_echo(octets, count, &read) == HJ_DONE &&
               read.refusal == HJ_DONE && read.type == words[0] &&
               read.identifier == words[1] && read.sequence == words[2] &&
               read.data_from == words[3] && read.hop_count == words[4] &&
               read.format == words[5] &&
               read.stamp == ((uint64_t)words[6] << 32 | words[7]) &&
               read.mtu == words[8] && read.rate == words[9] &&
               read.reserved == 0,
           what);
}

static void check_read(void)
{
    const uint32_t request[] = {8, 1, 2, 8, 0, 0, 0, 0, 0, 0};
    const uint32_t reply[] = {0, 1,          2,          26,  5,
                              2, 0xff010203, 0x04050607, 100, 9600};
    const uint32_t most[] = {0,          65535,      65535,      26, 255, 255,
                             0xffffffff, 0xffffffff, 0xffffffff, 0xffffffff};
    const uint32_t zero_due[] = {8, 0xf7ff, 0, 8, 0, 0, 0, 0, 0, 0};

    expect_words("08008f93000100026869", request, "a request");
    expect_words("0000619c000100020502ff0102030405060700000064000025806869",
                 reply, "a reply");
    expect_words("00000000ffffffffffffffffffffffffffffffffffffffffffff", most,
                 "the greatest numbers");
    expect_words("08000000f7ff0000", zero_due, "a checksum of 0000");
}

static void expect_unread(const char *message, uint32_t refusal,
                          const char *what)
{
    uint32_t words[HJ_MESSAGE_WORDS], as_lent[HJ_MESSAGE_WORDS];
    uint8_t octets[64];
    size_t count = octets_of(message, octets);
    hj_message read, none;

    memset(words, UNTOUCHED, sizeof words);
    memcpy(as_lent, words, sizeof words);
    expect(hj_read_echo_words(octets, count, words, HJ_MESSAGE_WORDS) ==
                   refusal &&
               memcmp(words, as_lent, sizeof words) == 0,
           what);
    memset(&none, 0, sizeof none);
    none.refusal = refusal;
    expect(hj_read_echo(octets, count, &read) == refusal &&
               memcmp(&read, &none, sizeof read) == 0,
           what);
}

static void check_unread(void)
{
    uint32_t words[HJ_MESSAGE_WORDS + 1];

    expect_unread("", HJ_SHORT, "no octets");
    expect_unread("0d008f93000100", HJ_SHORT, "1 before 4");
    expect_unread("0800f7fd000000", HJ_SHORT, "7 octets");
    expect_unread("0d008a93000100026869", HJ_BAD_FORM, "type 13");
    expect_unread("08018f92000100026869", HJ_BAD_FORM, "code 1");
    expect_unread("0001fffe00000000", HJ_BAD_FORM, "4 before 1 of a reply");
    expect_unread("0000ffff000000000000000000000000000000000000000000",
                  HJ_SHORT, "a reply of 25 octets");
    expect_unread("08008f92000100026869", HJ_BAD_CHECKSUM, "another checksum");
    expect_unread("0800fffff7ff0000", HJ_BAD_CHECKSUM, "ffff for 0000");
    for (size_t count = 0; count <= HJ_MESSAGE_WORDS + 1; count++)
        expect(count == HJ_MESSAGE_WORDS ||
                   hj_read_echo_words(NULL, 0, words, count) == HJ_BAD_NUMBER,
               "21 for any other number of words");
}

/* A message that was built is due, and octets behind it are not touched. */
static void expect_built(hj_answer built, const char *message,
                         const char *what)
{
    expect(built == octets_of(message, due + GUARD), what);
    expect(memcmp(space, due, sizeof space) == 0, what);
    memset(space, UNTOUCHED, sizeof space);
    memset(due, UNTOUCHED, sizeof due);
}

static void check_built(void)
{
    const uint8_t hi[] = {'h', 'i'};
    const uint64_t ones = UINT64_MAX;

    memset(space, UNTOUCHED, sizeof space);
    memset(due, UNTOUCHED, sizeof due);
    expect_built(hj_build_request(1, 2, hi, 2, output, 10),
                 "08008f93000100026869", "a request, room just enough");
    expect_built(hj_build_request(0xf7ff, 0, NULL, 0, output, 400),
                 "08000000f7ff0000", "no data, a checksum of 0000");
    expect_built(hj_build_reply(1, 2, 5, 2, 0xff01020304050607, 100, 9600, hi,
                                2, output, 28),
                 "0000619c000100020502ff0102030405060700000064000025806869",
                 "a reply, room just enough");
    expect_built(hj_build_reply(65535, 65535, 255, 255, ones, 0xffffffff,
                                0xffffffff, NULL, 0, output, 26),
                 "00000000ffffffffffffffffffffffffffffffffffffffffffff",
                 "the greatest numbers");
}

static void check_unbuilt(void)
{
    static uint8_t data[HJ_MOST_LENGTH];
    const hj_answer room = (hj_answer)HJ_SHORT_OUTPUT << 32;
    const hj_answer length = (hj_answer)HJ_DATA_TOO_LONG << 32;

    expect(hj_build_request(1, 2, data, 2, output, 9) == room &&
               hj_build_request(1, 2, NULL, 0, output, 7) == room &&
               hj_build_reply(1, 2, 3, 4, 5, 6, 7, data, 2, output, 27) ==
                   room,
           "17, one octet short");
    expect(hj_build_request(1, 2, data, 8134, output, 8141) == room &&
               hj_build_reply(1, 2, 3, 4, 5, 6, 7, data, 8116, output,
                              8141) == room,
           "17 before 20");
    expect(hj_build_request(1, 2, data, 8134, output, 8142) == length &&
               hj_build_reply(1, 2, 3, 4, 5, 6, 7, data, 8116, output,
                              8142) == length,
           "20, 8,142 octets");
    expect(memcmp(space, due, sizeof space) == 0, "nothing is written");
    expect(hj_build_request(1, 2, data, 8133, output, 8141) == 8141 &&
               hj_build_reply(1, 2, 3, 4, 5, 6, 7, data, 8115, output,
                              8141) == 8141,
           "8,141 octets");
}

/* What was read is built again, octet for octet. */
static void expect_built_again(const char *message, const char *what)
{
    uint8_t octets[64];
    size_t count = octets_of(message, octets);
    hj_message read;

    expect(hj_read_echo(octets, count, &read) == HJ_DONE, what);
    expect_built(hj_build_echo(&read, octets + read.data_from,
                               count - read.data_from, output, count),
                 message, what);
}

static void check_built_echo(void)
{
    const hj_message stray = {.type = HJ_ECHO_REQUEST,
                              .identifier = 0xf7ff,
                              .hop_count = 256,
                              .format = 256,
                              .stamp = 7,
                              .mtu = 8,
                              .rate = 9};

    memset(space, UNTOUCHED, sizeof space);
    memset(due, UNTOUCHED, sizeof due);
    expect_built_again("08008f93000100026869", "a request");
    expect_built_again("0800f7fe00000001", "a request without data");
    expect_built_again(
        "0000619c000100020502ff0102030405060700000064000025806869", "a reply");
    expect_built_again("00000000ffffffffffffffffffffffffffffffffffffffffffff",
                       "the greatest numbers");
    expect_built(hj_build_echo(&stray, NULL, 0, output, 400),
                 "08000000f7ff0000", "what only a reply has is passed over");
}

static void expect_unbuilt(hj_message message, size_t room, uint32_t refusal,
                           const char *what)
{
    static uint8_t data[HJ_MOST_LENGTH];

    expect(hj_build_echo(&message, data, 8134, output, room) ==
               (hj_answer)refusal << 32,
           what);
    expect(memcmp(space, due, sizeof space) == 0, what);
}

/* Each has data that make it a message too long. */
static void check_unbuilt_echo(void)
{
    const hj_message request = {.type = HJ_ECHO_REQUEST};
    const hj_message reply = {.type = HJ_ECHO_REPLY};
    hj_message wrong = {.type = 13, .identifier = 65536};

    memset(space, UNTOUCHED, sizeof space);
    expect_unbuilt(wrong, 0, HJ_BAD_FORM, "4 before 19");
    wrong.type = HJ_ECHO_REQUEST;
    expect_unbuilt(wrong, 0, HJ_FIELD_RANGE, "19 before 17, the identifier");
    wrong = request;
    wrong.sequence = 65536;
    expect_unbuilt(wrong, 8142, HJ_FIELD_RANGE, "19 before 20, the sequence");
    wrong = reply;
    wrong.hop_count = 256;
    expect_unbuilt(wrong, 0, HJ_FIELD_RANGE, "19, the hop count");
    wrong = reply;
    wrong.format = 256;
    expect_unbuilt(wrong, 0, HJ_FIELD_RANGE, "19, the format");
    expect_unbuilt(request, 8141, HJ_SHORT_OUTPUT, "17, a request");
    expect_unbuilt(reply, 8159, HJ_SHORT_OUTPUT, "17, a reply");
    expect_unbuilt(request, 8142, HJ_DATA_TOO_LONG, "20, a request");
    expect_unbuilt(reply, 8160, HJ_DATA_TOO_LONG, "20, a reply");
}

int main(void)
{
    check_reply();
    check_refusals();
    check_none();
    check_no_domain();
    check_subscribed();
    check_subnet();
    check_small_mtu();
    check_drop();
    check_addresses();
    check_rewritten();
    check_elements();
    check_stamps();
    check_cut();
    check_unsent();
    check_full();
    check_to_ourselves();
    check_read();
    check_unread();
    check_built();
    check_unbuilt();
    check_built_echo();
    check_unbuilt_echo();
    return expect_end("echo_calls");
}
