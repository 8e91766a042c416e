/*
 * batch.h: a batch of the bench. Its items are made one by one on both sides,
 * and then all of them in one call of the library, from the same state.
 */
#ifndef BATCH_H
#define BATCH_H

#include "call.h"

struct bench_batch {
    size_t items;
    uint32_t lengths[TRACE_MOST_ITEMS];
    uint32_t ports[TRACE_MOST_ITEMS];
    uint16_t slots[TRACE_MOST_ITEMS];
    uint32_t seconds[TRACE_MOST_ITEMS];
    size_t count;
    uint8_t octets[TRACE_MOST_OCTETS];
    /* What the one call answered. */
    uint32_t refusal;
    uint64_t answers[TRACE_MOST_ITEMS];
    uint8_t output[TRACE_MOST_ITEMS * BENCH_HEADERS];
};

extern struct bench_batch bench_batch;

/* Takes the words of a `batch` line, the first word left out; false where it is
 * not one that is heard. */
bool batch_take(const struct trace_word *words);

/* Makes bench_call the call of an item by itself. */
void batch_put_item(size_t item);

#endif
