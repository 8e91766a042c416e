/*
 * Many datagrams in one call (page 02, W-201). The call is judged as a whole
 * before anything is done; then each datagram is received as it would be by
 * itself, and sees what those before it did.
 *
 * The awkward case: lengths whose sum passes 32 bits. They are added in 64,
 * which 64 of them can not pass.
 */
#include "plain_list.h"

/* The list of routes first; the causes of 27 share their number, so their
 * order is nobody's affair. */
static plain_refusal judge_batch(const plain_view *view,
                                 const plain_batch *batch,
                                 size_t verdict_count, size_t room)
{
    size_t count = batch->length_count;
    uint64_t sum = 0;

    if (plain_list_too_long(view->routes.count))
        return PLAIN_SET_NUMBER;
    if (batch->port_count != count || batch->slot_count != count ||
        batch->second_count != count || verdict_count != count)
        return PLAIN_BATCH_UNFIT;
    if (count > PLAIN_BATCH_MOST || room < PLAIN_OUTPUT_ROOM * count)
        return PLAIN_BATCH_UNFIT;
    for (size_t at = 0; at < count; at++)
        sum += batch->lengths[at];
    return sum <= batch->octet_count ? PLAIN_GOOD : PLAIN_BATCH_UNFIT;
}

plain_refusal plain_receive_many(const plain_view *view,
                                 const plain_batch *batch,
                                 plain_verdict *verdicts, size_t verdict_count,
                                 uint8_t *output, size_t room)
{
    const uint8_t *octets = batch->octets;
    plain_refusal refusal = judge_batch(view, batch, verdict_count, room);

    if (refusal != PLAIN_GOOD)
        return refusal;
    for (size_t at = 0; at < batch->length_count; at++) {
        verdicts[at] = plain_receive(view, batch->ports[at], batch->slots[at],
                                     batch->seconds[at], octets,
                                     batch->lengths[at], output,
                                     PLAIN_OUTPUT_ROOM);
        octets += batch->lengths[at];
        output += PLAIN_OUTPUT_ROOM;
    }
    return PLAIN_GOOD;
}
