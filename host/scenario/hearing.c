/*
 * hearing.c: a node hears what arrived. It does what flight software does: a
 * free slot is found for each datagram, the relay judges, and where ports took
 * it, the headers that the relay wrote, one for each of them, and the data that
 * came stay under the slot.
 *
 * The relay is asked by a call for each (hj_receive) or by one call for all
 * (hj_receive_batch, W-201). It has to answer the same, and the story is the
 * same to the octet. So nothing may be told that is known between two single
 * calls alone: all are heard first, and the counters, which a batch moves all
 * at once, are told behind the last. For the same reason all slots are found
 * before the first call.
 *
 * The awkward case is an echo request: to answer it is a call of its own, made
 * before the next datagram is heard. So it is the last of its list.
 */
#include "hearing.h"

#include <string.h>

#include "answers.h"
#include "beside.h"
#include "expect.h"
#include "foretold.h"
#include "line.h"
#include "meaning.h"
#include "messages.h"
#include "names.h"
#include "replies.h"
#include "slots.h"
#include "told.h"
#include "told_echo.h"

static bool in_batches;
/* By how many items they had. */
static uint32_t batches[HJ_PORTS + 1];

void hearing_in_batches(void)
{
    in_batches = true;
}

uint32_t hearing_batches(uint32_t items)
{
    return batches[items];
}

static struct kept *kept_of(const struct arrivals *arrivals, uint32_t which)
{
    return &nodes[arrivals->node]
                .slots[arrivals->mission][arrivals->how[which].slot];
}

/* ---- The relay is asked ------------------------------------------------ */

static void keep(struct arrivals *arrivals, uint32_t which)
{
    struct kept *kept;

    arrivals->how[which].slot =
        slots_free(&nodes[arrivals->node], arrivals->mission);
    kept = kept_of(arrivals, which);
    kept->reply = false;
    kept->came = arrivals->came[which];
    kept->copies = 1; /* not free while it is judged */
}

static void receive(const struct arrivals *arrivals, uint32_t which)
{
    struct node *node = &nodes[arrivals->node];
    struct kept *kept = kept_of(arrivals, which);

    kept->verdict =
        hj_receive(LENT_BOARD(node), LENT_MISSION(node, arrivals->mission),
                   LENT_ROUTES(node), arrivals->how[which], kept->came.octets,
                   kept->came.length, kept->output, sizeof kept->output);
}

/* The datagrams end to end, and how they came; answers their octets. */
static size_t fill(const struct arrivals *arrivals, hj_batch *batch,
                   uint8_t *octets)
{
    size_t filled = 0;

    batch->items = 0;
    for (uint32_t i = 0; i < arrivals->count; i++) {
        const struct datagram *came = &arrivals->came[i];

        memcpy(octets + filled, came->octets, came->length);
        filled += came->length;
        (void)hj_batch_add(batch, arrivals->how[i], came->length);
    }
    return filled;
}

static void receive_batch(const struct arrivals *arrivals)
{
    static hj_batch batch;
    static uint8_t octets[sizeof arrivals->came];
    struct node *node = &nodes[arrivals->node];
    size_t filled = fill(arrivals, &batch, octets);
    uint32_t refusal = hj_receive_batch(
        LENT_BOARD(node), LENT_MISSION(node, arrivals->mission),
        LENT_ROUTES(node), &batch, octets, filled);

    if (refusal != HJ_DONE)
        line_refuse("a batch that the relay hears", number_name(refusal));
    batches[arrivals->count]++;
    for (uint32_t i = 0; i < arrivals->count; i++) {
        struct kept *kept = kept_of(arrivals, i);

        kept->verdict = batch.answers[i];
        memcpy(kept->output, hj_item_output(batch.output, i),
               sizeof kept->output);
    }
}

/* ---- What it answered is told ------------------------------------------ */

/* What is delivered is handed on. There are no control messages but echoes. */
static void deliver(uint32_t at, uint32_t port, const struct datagram *came)
{
    hj_message message;

    if (!message_of(came, &message))
        return;
    if (message.type == HJ_ECHO_REQUEST) {
        answer_echo(at, port, came);
        return;
    }
    replies_note(at, port, came, &message);
    told_reply(came, &message);
}

/* The counters before the first are those to tell behind the last. */
static void tell(const struct arrivals *arrivals, uint32_t which,
                 const uint32_t *before)
{
    struct kept *kept = kept_of(arrivals, which);
    hj_arrival how = arrivals->how[which];
    uint32_t at = arrivals->node;

    slots_count(&nodes[at], kept);
    beside_receive(&nodes[at], how, kept);
    expect_note(at, how.port, kept);
    told_arrival(at, how.port, kept,
                 which + 1 == arrivals->count ? before : NULL);
    meaning_hold(at, how.port, kept);
    foretold_enter(at, how.slot, kept);
    if (hj_local(kept->verdict) == HJ_DELIVERED)
        deliver(at, how.port, &arrivals->came[which]);
}

void hear(struct arrivals *arrivals)
{
    uint32_t before[HJ_COUNTERS];

    node_counters(&nodes[arrivals->node], arrivals->mission, before);
    for (uint32_t i = 0; i < arrivals->count; i++)
        keep(arrivals, i);
    if (in_batches) {
        receive_batch(arrivals);
    } else {
        for (uint32_t i = 0; i < arrivals->count; i++)
            receive(arrivals, i);
    }
    for (uint32_t i = 0; i < arrivals->count; i++)
        tell(arrivals, i, before);
}
