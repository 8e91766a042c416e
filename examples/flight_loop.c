/*
 * flight_loop: the smallest loop that relays, for one mission. It sets up three
 * ports and three routes, hears datagrams, lets the relay judge each, and sends
 * on what the relay says: the header that the relay wrote for the port, then the
 * data that the loop kept. An echo request that is for this node is answered. At
 * the end the loop sweeps once, so that the relay forgets the floods that have
 * died out. A second mission would have a state and a store of its own, and be
 * lent the same board and routes.
 *
 * The links and the clock are stood in for: `heard` hands out datagrams built
 * here, `send_on` prints, and `clock_second` is a number. In flight these would
 * be drivers, and the rest would stay.
 *
 * The relay keeps a slot number and no octets, so the loop has a store of slots:
 * the datagram, the headers that the relay wrote, and the verdict, which says
 * how long each of them is and where the data begin. The awkward case is a
 * datagram that several ports take. Their headers may differ, and its slot is
 * free again only once each port has sent its copy, so the copies are counted.
 * A reply has a slot of its own, which holds it whole.
 */
#include <stdio.h>
#include <string.h>

#include "harpjuniper.h"

#define SLOTS 64
#define NO_SLOT SLOTS
#define LIFETIME 60 /* seconds that a flood lives in the net, at most */
#define LEAP 3600   /* seconds that the relay's clock may go on at once */

static hj_board board;
static hj_mission mission;
static hj_record routes[8]; /* as many as are needed, at most HJ_ROUTES */

/* What calls are lent, each with its count. */
#define BOARD &board, HJ_BOARD_WORDS
#define MISSION &mission, HJ_MISSION_WORDS
#define ROUTES routes, sizeof routes / sizeof *routes

static struct slot {
    uint32_t copies; /* still to be sent; 0 where the slot is free */
    int is_reply;    /* the octets are sent as they stand */
    hj_verdict verdict;
    uint32_t length;
    uint8_t headers[HJ_OUTPUT_ROOM];
    uint8_t octets[HJ_MOST_LENGTH];
} slots[SLOTS];

/* ---- The links, stood in for --------------------------------------------- */

#define HERE 0x0a0a0a02u  /* 10.10.10.2, this node on port 0 */
#define NEAR 0x0a0a0a04u  /* 10.10.10.4, whom port 0 hears */
#define FAR 0x0a04090eu   /* 10.4.9.14, behind port 1 */
#define OTHER 0xc0000201u /* 192.0.2.1, which no route leads to */
#define UNIT 0x0e         /* 10.10.10.14 in one octet, behind port 1 too */
#define ALL 0xff          /* the broadcast of 10.10.10 in one octet */

/* Under 256 a destination has one octet. A hop count of 0 is none. One with a
 * timestamp is flooded, and comes by two ways. One with a sequence number is an
 * echo request. */
static const struct {
    uint32_t destination, precedence, hop_count, stamp;
    uint16_t sequence;
    const char *data;
} HEARD[] = {{FAR, 0, 64, 0, 0, "temperature"}, {FAR, 9, 64, 0, 0, "alarm"},
             {HERE, 0, 64, 0, 0, "command"},    {OTHER, 0, 64, 0, 0, "stray"},
             {FAR, 0, 1, 0, 0, "tired"},        {UNIT, 3, 0, 0, 0, "dose"},
             {ALL, 5, 0, 0, 0, "time"},         {HERE, 2, 61, 0, 1, "there?"},
             {OTHER, 1, 64, 8001, 0, "search"},
             {OTHER, 1, 63, 8001, 0, "search"}};

/* Of the node's own clock, which began when the relay was made. */
static uint32_t clock_second;

static hj_fields heard_fields(size_t which)
{
    hj_fields fields = {0};

    fields.tp_id = HEARD[which].sequence != 0 ? HJ_TP_SCMP : 6;
    fields.extended = HEARD[which].destination > 255;
    fields.destination_low = HEARD[which].destination;
    fields.has_source = 1;
    fields.source_low = fields.extended ? NEAR : NEAR % 256;
    fields.has_qos = 1;
    fields.precedence = HEARD[which].precedence;
    fields.has_hop_count = HEARD[which].hop_count != 0;
    fields.hop_count = HEARD[which].hop_count;
    if (HEARD[which].stamp != 0) {
        fields.routing = 3;
        fields.stamp_format = HJ_STAMP_IMPLICIT;
        fields.time = HEARD[which].stamp;
    }
    fields.has_checksum = 1;
    return fields;
}

/* What is carried, at the front of the room; how many octets it has. */
static uint32_t heard_data(size_t which, uint8_t *octets, size_t room)
{
    const char *data = HEARD[which].data;

    if (HEARD[which].sequence != 0)
        return hj_value(hj_build_request(7, HEARD[which].sequence,
                                         (const uint8_t *)data, strlen(data),
                                         octets, room));
    memcpy(octets, data, strlen(data));
    return (uint32_t)strlen(data);
}

/* The next datagram that port 0 hears, or 0 octets where there is none. */
static uint32_t heard(uint8_t *octets)
{
    static size_t next;
    uint8_t carried[64];
    uint32_t count;
    hj_answer built;

    if (next == sizeof HEARD / sizeof *HEARD)
        return 0;
    count = heard_data(next, carried, sizeof carried);
    built = hj_build(heard_fields(next), count, octets, HJ_HEADER_ROOM);
    memcpy(octets + hj_value(built), carried, count);
    next++;
    clock_second++;
    return hj_value(built) + count;
}

static void print_octets(const uint8_t *octets, uint32_t count)
{
    for (uint32_t at = 0; at < count; at++)
        printf("%02x", (unsigned)octets[at]);
}

/* The port's own header, which may be another than the one that arrived, and
 * longer. The data are all that stood behind that one. */
static void send_on(uint32_t port, const struct slot *slot)
{
    uint32_t from = hj_data_from(slot->verdict);

    printf("port %u sends ", (unsigned)port);
    if (slot->is_reply) {
        print_octets(slot->octets, slot->length);
        puts(", a reply");
        return;
    }
    print_octets(hj_header(slot->headers, port),
                 hj_header_octets(slot->verdict, port));
    printf(" %.*s\n", (int)(slot->length - from),
           (const char *)slot->octets + from);
}

/* ---- The loop ------------------------------------------------------------ */

/* 0, or the number of what refused a setting. The first two routes lead to
 * another relay, so they ask for a hop count, and a datagram cannot circle for
 * ever. */
static uint32_t set_up(void)
{
    uint32_t refusal = hj_fresh_board(BOARD);

    if (refusal == HJ_DONE)
        refusal = hj_fresh_mission(MISSION, 0);
    if (refusal == HJ_DONE)
        refusal = hj_set_router(BOARD, 1);
    if (refusal == HJ_DONE)
        refusal = hj_set_lifetime(BOARD, LIFETIME);
    if (refusal == HJ_DONE)
        refusal = hj_set_port(BOARD, 0, HERE, 0xffffff00, 8191, 0);
    if (refusal == HJ_DONE)
        refusal = hj_set_port(BOARD, 1, 0x0a0a0b02, 0xffffff00, 1500, 0);
    if (refusal == HJ_DONE)
        refusal = hj_set_port(BOARD, 2, 0x0a0a0a06, 0xffffff00, 1500, 0);
    if (refusal == HJ_DONE)
        refusal = hj_set_route(BOARD, ROUTES, 0, 0x0a040900, 0xffffff00, 1,
                               HJ_UP, HJ_CAPABLE_HOP_COUNT, 0);
    if (refusal == HJ_DONE)
        refusal = hj_set_route(BOARD, ROUTES, 1, 0x0a0a0a0e, 0xffffffff, 1,
                               HJ_UP, HJ_CAPABLE_HOP_COUNT, 0);
    if (refusal == HJ_DONE) /* the way back for replies */
        refusal = hj_set_route(BOARD, ROUTES, 2, NEAR, 0xffffffff, 0, HJ_UP,
                               HJ_CAPABLE_NONE, 0);
    return refusal;
}

/* The second to hand over. The relay refuses one under the last that it
 * accepted, and one that is too late shuts out all that follow: so it is kept
 * between the last one and a leap beyond it. One wrong reading then does little
 * harm; a clock that stays wrong has to be told to the ground. */
static uint32_t bounded_second(void)
{
    uint32_t last = hj_value(hj_last_second(MISSION));

    if (clock_second < last)
        return last;
    return clock_second - last > LEAP ? last + LEAP : clock_second;
}

static uint16_t free_slot(void)
{
    uint16_t number = 0;

    while (number < SLOTS && slots[number].copies > 0)
        number++;
    return number;
}

static uint32_t size_of_set(uint32_t ports)
{
    uint32_t size = 0;

    for (; ports != 0; ports >>= 1)
        size += ports & 1;
    return size;
}

/* The reply is written into a slot of its own, which is as long as any
 * datagram, so that the route may lengthen it; the slot of the request is not
 * free, so it is another. What is no echo request that gets a reply is left
 * alone, and nothing is counted for it. */
static void answer(uint32_t port, const struct slot *asked, uint32_t count)
{
    uint16_t number = free_slot();
    struct slot *slot = &slots[number % SLOTS];
    hj_verdict verdict;

    if (number == NO_SLOT)
        return;
    verdict = hj_echo(BOARD, MISSION, ROUTES, port, number, asked->octets,
                      count, slot->octets, sizeof slot->octets);
    printf("  reply %u, %u octets\n", (unsigned)hj_onward(verdict),
           (unsigned)hj_reply_octets(verdict));
    slot->copies = size_of_set(hj_took(verdict));
    slot->is_reply = 1;
    slot->length = hj_reply_octets(verdict);
}

/* The datagram stands in the slot. The length field says where it ends: a link
 * may hand over more octets than that. */
static void judge(uint32_t port, uint16_t number, uint32_t count)
{
    struct slot *slot = &slots[number];
    hj_arrival arrival = {port, number, bounded_second()};
    hj_verdict verdict =
        hj_receive(BOARD, MISSION, ROUTES, arrival, slot->octets, count,
                   slot->headers, sizeof slot->headers);

    printf("port %u hears %u octets: ended by %u, local %u, onward %u\n",
           (unsigned)port, (unsigned)count, (unsigned)hj_ended_by(verdict),
           (unsigned)hj_local(verdict), (unsigned)hj_onward(verdict));
    if (hj_local(verdict) == HJ_DELIVERED)
        puts("  it is for this node");
    slot->copies = size_of_set(hj_took(verdict));
    slot->is_reply = 0;
    slot->verdict = verdict;
    slot->length = hj_read(slot->octets, count).length;
}

static int is_control_message(const struct slot *slot, uint32_t count)
{
    return hj_local(slot->verdict) == HJ_DELIVERED &&
           hj_read(slot->octets, count).fields.tp_id == HJ_TP_SCMP;
}

/* Sends what waits on a port, the highest precedence first. */
static void send_waiting(uint32_t port)
{
    hj_answer taken;

    while (hj_refusal(taken = hj_take(BOARD, MISSION, port)) == HJ_DONE) {
        send_on(port, &slots[hj_slot(taken)]);
        slots[hj_slot(taken)].copies--;
    }
}

/* Whether there was a datagram to hear, and a slot for it. */
static int hear(uint32_t port)
{
    uint16_t number = free_slot();
    uint32_t count = number == NO_SLOT ? 0 : heard(slots[number].octets);

    if (count > 0)
        judge(port, number, count);
    if (count > 0 && is_control_message(&slots[number], count)) {
        slots[number].copies++; /* not free while it is answered */
        answer(port, &slots[number], count);
        slots[number].copies--;
    }
    return count > 0;
}

static uint32_t pairs_held(void)
{
    uint32_t held = 0;

    for (uint32_t place = 0; place < HJ_PAIRS; place++)
        held += hj_get_pair(MISSION, place).format != HJ_STAMP_NONE;
    return held;
}

/* In flight, every minute or so: else the places of the pairs fill up. */
static void sweep(void)
{
    uint32_t second = bounded_second();
    uint32_t held = pairs_held();
    uint32_t refusal = hj_sweep(BOARD, MISSION, second);

    printf("swept at second %u: ended by %u, %u of %u pairs left\n",
           (unsigned)second, (unsigned)refusal, (unsigned)pairs_held(),
           (unsigned)held);
}

int main(void)
{
    uint32_t refusal = set_up();

    if (refusal != HJ_DONE) {
        printf("a setting was refused by %u\n", (unsigned)refusal);
        return 1;
    }
    while (hear(0))
        continue; /* in flight, the ports would be served in turn */
    for (uint32_t port = 0; port < 3; port++)
        send_waiting(port);
    clock_second += 2 * LIFETIME; /* in which nothing is heard */
    sweep();
    printf("received %u, sent on %u, replies %u\n",
           (unsigned)hj_value(hj_counter(MISSION, HJ_IN_RECEIVES)),
           (unsigned)hj_value(hj_counter(MISSION, HJ_FORW_DATAGRAMS)),
           (unsigned)hj_value(hj_counter(MISSION, HJ_OUT_REQUESTS)));
    return 0;
}
