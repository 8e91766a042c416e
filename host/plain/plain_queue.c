/*
 * A port's queue as a ring of 32 entries. Since every entry came in by
 * plain_queue_put, precedence never rises from first to last, and the place
 * just ahead of the first lower entry is found from the last one backwards.
 * The usual newcomer, no higher than those that wait, then moves nothing.
 *
 * The awkward case: entries of equal precedence keep their order of entering,
 * so the search backwards stops at the first one that is not lower.
 */
#include "plain_queue.h"

static plain_entry *entry_at(plain_queue *queue, uint32_t place)
{
    return &queue->entries[(queue->first + place) % PLAIN_QUEUE_ENTRIES];
}

bool plain_queue_put(plain_queue *queue, plain_entry newcomer)
{
    uint32_t place = queue->waiting;

    if (queue->waiting >= PLAIN_QUEUE_ENTRIES)
        return false;
    while (place > 0 &&
           entry_at(queue, place - 1)->precedence < newcomer.precedence) {
        *entry_at(queue, place) = *entry_at(queue, place - 1);
        place--;
    }
    *entry_at(queue, place) = newcomer;
    queue->waiting++;
    return true;
}

bool plain_queue_take(plain_queue *queue, plain_entry *entry)
{
    if (queue->waiting == 0)
        return false;
    *entry = *entry_at(queue, 0);
    queue->first = (queue->first + 1) % PLAIN_QUEUE_ENTRIES;
    queue->waiting--;
    return true;
}
