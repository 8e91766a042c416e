/*
 * singles.c: the items of a batch. A batch is to be what single calls are, so
 * its items are made as such, on a copy of the mission's state and of the
 * output as they stand before it, and all three are compared: answers, output
 * and words.
 */
#include "singles.h"

#include <string.h>

/* ---- What is due --------------------------------------------------------- */

uint32_t soak_batch_refusal(const struct soak_call *call)
{
    size_t items = call->batch.counts[LIST_LENGTHS];
    uint64_t sum = 0;

    if (soak_list_too_long(call))
        return HJ_BAD_NUMBER;
    for (int list = 0; list < SOAK_LISTS; list++) {
        if (call->batch.counts[list] != items)
            return HJ_BAD_BATCH;
    }
    for (size_t i = 0; i < items; i++)
        sum += call->batch.lengths[i];
    return items > HJ_MOST_ITEMS || sum > call->count ||
                   call->room < HJ_OUTPUT_ROOM * items
               ? HJ_BAD_BATCH
               : HJ_DONE;
}

size_t soak_batch_items(const struct soak_call *call)
{
    return soak_batch_refusal(call) == HJ_DONE
               ? call->batch.counts[LIST_LENGTHS]
               : 0;
}

void soak_batch_item(const struct soak_call *call, size_t which,
                     struct soak_call *item)
{
    const uint8_t *from = call->octets;

    for (size_t i = 0; i < which; i++)
        from += call->batch.lengths[i];
    item->which = CALL_RECEIVE;
    item->numbers[0] = call->batch.ports[which];
    item->numbers[1] = call->batch.slots[which];
    item->numbers[2] = call->batch.seconds[which];
    item->mission = call->mission;
    item->board_words = call->board_words;
    item->mission_words = call->mission_words;
    item->records = call->records;
    item->room = HJ_OUTPUT_ROOM;
    item->count = call->batch.lengths[which];
    memcpy(item->octets, from, item->count);
}

/* ---- Single calls -------------------------------------------------------- */

static struct {
    hj_mission mission;
    hj_verdict verdicts[HJ_MOST_ITEMS];
    uint8_t output[HJ_MOST_ITEMS * HJ_OUTPUT_ROOM];
} singles;

void soak_make_singles(const struct soak_call *call,
                       const struct soak_pieces *before)
{
    const struct library_lent *lent = &before->lent;
    size_t items = soak_batch_items(call);
    const uint8_t *from = before->octets;

    if (!soak_words_right(call))
        return;
    singles.mission = *lent->mission;
    memcpy(singles.output, before->output, HJ_OUTPUT_ROOM * items);
    for (size_t i = 0; i < items; i++) {
        singles.verdicts[i] = hj_receive_at(
            lent->board, lent->board_words, &singles.mission,
            HJ_MISSION_WORDS, lent->routes, lent->route_count,
            call->batch.ports[i], call->batch.slots[i],
            call->batch.seconds[i], from, call->batch.lengths[i],
            singles.output + HJ_OUTPUT_ROOM * i, HJ_OUTPUT_ROOM);
        from += call->batch.lengths[i];
    }
}

const char *soak_unlike_singles(const struct soak_call *call,
                                const struct soak_answer *answer,
                                const struct soak_pieces *after)
{
    size_t items = soak_batch_items(call);

    if (!soak_words_right(call) || items == 0)
        return NULL;
    if (memcmp(singles.verdicts, answer->items,
               items * sizeof *singles.verdicts) != 0)
        return "single calls answer otherwise";
    if (memcmp(singles.output, after->output, HJ_OUTPUT_ROOM * items) != 0)
        return "the output's octets, which single calls write otherwise";
    return memcmp(&singles.mission, after->lent.mission,
                  sizeof singles.mission) == 0
               ? NULL
               : "the words of a mission's state, which single calls leave "
                 "otherwise";
}
