/*
 * flight_batch: the loop of flight_loop with many datagrams in one call. It
 * gathers what the links have heard, lets the relay judge all of it at once,
 * and sends on what waits before it gathers again. Echo requests and sweeps are
 * left out here; they are as in flight_loop.
 *
 * The links and the clock are stood in for: `heard` hands out datagrams built
 * here, `send_on` prints, and `clock_second` is a number. In flight these would
 * be drivers, and the rest would stay.
 *
 * The datagrams are put end to end as they come, which is how the call wants
 * them, and stay there until they are sent. The slot of each is its number in
 * the batch, so an entry that is taken says where its data are, which verdict
 * it had and where its header stands.
 *
 * The awkward case is a queue: nothing is taken while a batch is heard, so a
 * port may be asked to take as many entries as there are items. With no more
 * items than a queue holds, and queues that were emptied before, none is
 * dropped. A refused item is answered and counted, and the next goes on.
 */
#include <stdio.h>
#include <string.h>

#include "harpjuniper.h"

#define TOGETHER 8 /* datagrams in a call, at most HJ_QUEUE */

static hj_board board;
static hj_mission mission;
static hj_record routes[8];

/* What calls are lent, each with its count. */
#define BOARD &board, HJ_BOARD_WORDS
#define MISSION &mission, HJ_MISSION_WORDS
#define ROUTES routes, sizeof routes / sizeof *routes

static hj_batch batch;
static uint8_t octets[TOGETHER * HJ_MOST_LENGTH];
static const uint8_t *starts[TOGETHER]; /* of each item, in the octets */

/* ---- The links, stood in for --------------------------------------------- */

#define HERE 0x0a0a0a02u  /* 10.10.10.2, this node on port 0 */
#define NEAR 0x0a0a0a04u  /* 10.10.10.4, whom port 0 hears */
#define FAR 0x0a04090eu   /* 10.4.9.14, behind port 1 */
#define OTHER 0xc0000201u /* 192.0.2.1, which no route leads to */
#define ALL 0x0a0a0affu   /* the broadcast of 10.10.10 */

static const struct {
    uint32_t destination, precedence, hop_count;
    const char *data;
} HEARD[] = {{FAR, 0, 64, "t=21.5"}, {FAR, 0, 64, "t=21.6"},
             {FAR, 9, 64, "alarm"},  {OTHER, 0, 64, "stray"},
             {HERE, 0, 64, "command"}, {FAR, 0, 1, "tired"},
             {ALL, 5, 64, "time"},   {FAR, 0, 64, "t=21.7"},
             {FAR, 0, 64, "t=21.8"}, {0x0a0409fe, 0, 64, "broken"},
             {FAR, 3, 64, "dose"}};

/* Of the node's own clock, which began when the relay was made. */
static uint32_t clock_second;

/* The next datagram that port 0 hears, or 0 octets where there is none. */
static uint32_t heard(uint8_t *into)
{
    static size_t next;
    hj_fields fields = {0};
    uint32_t count;
    hj_answer built;

    if (next == sizeof HEARD / sizeof *HEARD)
        return 0;
    fields.tp_id = 6;
    fields.extended = 1;
    fields.destination_low = HEARD[next].destination;
    fields.has_source = 1;
    fields.source_low = NEAR;
    fields.has_qos = 1;
    fields.precedence = HEARD[next].precedence;
    fields.has_hop_count = 1;
    fields.hop_count = HEARD[next].hop_count;
    count = (uint32_t)strlen(HEARD[next].data);
    built = hj_build(fields, count, into, HJ_HEADER_ROOM);
    memcpy(into + hj_value(built), HEARD[next].data, count);
    next++;
    clock_second++;
    return hj_value(built) + count;
}

/* The header that the relay wrote for the port, and the data behind the one
 * that came, up to what its length field says: a link may hand over more. */
static void send_on(uint32_t port, uint16_t item)
{
    hj_verdict verdict = batch.answers[item];
    const uint8_t *header =
        hj_header(hj_item_output(batch.output, item), port);
    uint32_t from = hj_data_from(verdict);
    uint32_t end = hj_read(starts[item], batch.lengths[item]).length;

    printf("port %u sends ", (unsigned)port);
    for (uint32_t at = 0; at < hj_header_octets(verdict, port); at++)
        printf("%02x", (unsigned)header[at]);
    printf(" %.*s\n", (int)(end - from), (const char *)starts[item] + from);
}

/* ---- The loop ------------------------------------------------------------ */

/* 0, or the number of what refused a setting. */
static uint32_t set_up(void)
{
    uint32_t refusal = hj_fresh_board(BOARD);

    if (refusal == HJ_DONE)
        refusal = hj_fresh_mission(MISSION, 0);
    if (refusal == HJ_DONE)
        refusal = hj_set_router(BOARD, 1);
    if (refusal == HJ_DONE)
        refusal = hj_set_port(BOARD, 0, HERE, 0xffffff00, 8191, 0);
    if (refusal == HJ_DONE)
        refusal = hj_set_port(BOARD, 1, 0x0a0a0b02, 0xffffff00, 1500, 0);
    if (refusal == HJ_DONE)
        refusal = hj_set_port(BOARD, 2, 0x0a0a0a06, 0xffffff00, 1500, 0);
    if (refusal == HJ_DONE)
        refusal = hj_set_route(BOARD, ROUTES, 0, 0x0a040900, 0xffffff00, 1,
                               HJ_UP, HJ_CAPABLE_HOP_COUNT, 0);
    return refusal;
}

/* What was heard since the last call, end to end; how many octets. The seconds
 * go on from item to item, since the clock does; flight_loop shows how they are
 * bounded. */
static size_t gather(uint32_t port)
{
    size_t used = 0;
    uint32_t count;

    batch.items = 0;
    while (batch.items < TOGETHER && (count = heard(octets + used)) > 0) {
        hj_arrival arrival = {port, (uint16_t)batch.items, clock_second};

        starts[batch.items] = octets + used;
        hj_batch_add(&batch, arrival, count);
        used += count;
    }
    return used;
}

static void tell(void)
{
    for (size_t i = 0; i < batch.items; i++) {
        hj_verdict verdict = batch.answers[i];

        printf("item %u, %u octets: ended by %u, local %u, onward %u\n",
               (unsigned)i, (unsigned)batch.lengths[i],
               (unsigned)hj_ended_by(verdict), (unsigned)hj_local(verdict),
               (unsigned)hj_onward(verdict));
        if (hj_local(verdict) == HJ_DELIVERED)
            puts("  it is for this node");
    }
}

/* Sends what waits on a port, the highest precedence first. */
static void send_waiting(uint32_t port)
{
    hj_answer taken;

    while (hj_refusal(taken = hj_take(BOARD, MISSION, port)) == HJ_DONE)
        send_on(port, hj_slot(taken));
}

/* Whether there was anything to hear. A batch is refused whole, or each of its
 * items has its own verdict. */
static int serve(void)
{
    size_t used = gather(0);
    uint32_t refusal;

    if (batch.items == 0)
        return 0;
    refusal = hj_receive_batch(BOARD, MISSION, ROUTES, &batch, octets, used);
    printf("%u datagrams in one call: %u\n", (unsigned)batch.items,
           (unsigned)refusal);
    if (refusal == HJ_DONE)
        tell();
    for (uint32_t port = 0; port < 3; port++)
        send_waiting(port);
    return 1;
}

int main(void)
{
    uint32_t refusal = set_up();

    if (refusal != HJ_DONE) {
        printf("a setting was refused by %u\n", (unsigned)refusal);
        return 1;
    }
    while (serve())
        continue;
    printf("received %u, sent on %u, dropped %u\n",
           (unsigned)hj_value(hj_counter(MISSION, HJ_IN_RECEIVES)),
           (unsigned)hj_value(hj_counter(MISSION, HJ_FORW_DATAGRAMS)),
           (unsigned)hj_value(hj_counter(MISSION, HJ_OUT_DISCARDS)));
    return 0;
}
