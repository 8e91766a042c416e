/*
 * batch.c: taking a `batch` line apart. The awkward case is one that would be
 * refused: of that there is nothing to be measured, and it is not taken.
 */
#include "batch.h"

#include <string.h>

struct bench_batch bench_batch;

/* A list of numbers, as many as there are items. */
static bool take_list(struct trace_word word, uint32_t most, uint32_t *numbers)
{
    static uint32_t all[TRACE_MOST_LISTED];
    size_t count;

    if (!trace_list(word, most, all, &count) || count != bench_batch.items)
        return false;
    memcpy(numbers, all, count * sizeof *all);
    return true;
}

static bool take_items(const struct trace_word *words)
{
    uint32_t slots[TRACE_MOST_ITEMS];

    if (!take_list(words[0], UINT32_MAX, bench_batch.lengths) ||
        !take_list(words[1], UINT32_MAX, bench_batch.ports) ||
        !take_list(words[2], UINT16_MAX, slots) ||
        !take_list(words[3], UINT32_MAX, bench_batch.seconds))
        return false;
    for (size_t i = 0; i < bench_batch.items; i++)
        bench_batch.slots[i] = (uint16_t)slots[i];
    return true;
}

bool batch_take(const struct trace_word *words)
{
    static uint32_t lengths[TRACE_MOST_LISTED];
    size_t sum = 0;

    if (!trace_list(words[1], TRACE_MOST_OCTETS, lengths,
                    &bench_batch.items) ||
        bench_batch.items > TRACE_MOST_ITEMS || !take_items(words + 1) ||
        !trace_octets(words[5], bench_batch.octets, &bench_batch.count))
        return false;
    for (size_t i = 0; i < bench_batch.items; i++)
        sum += bench_batch.lengths[i];
    return sum <= bench_batch.count && bench_batch.items > 0 &&
           trace_mission(words[6], &bench_call.mission);
}

static const uint8_t *octets_of(size_t item)
{
    const uint8_t *from = bench_batch.octets;

    for (size_t i = 0; i < item; i++)
        from += bench_batch.lengths[i];
    return from;
}

void batch_put_item(size_t item)
{
    bench_call.which = CALL_RECEIVE;
    bench_call.numbers[0] = bench_batch.ports[item];
    bench_call.numbers[1] = bench_batch.slots[item];
    bench_call.numbers[3] = bench_batch.seconds[item];
    bench_call.count = bench_batch.lengths[item];
    memcpy(bench_call.octets, octets_of(item), bench_call.count);
}
