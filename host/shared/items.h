/*
 * items.h: the items of a batch in an answered trace. Each is handed on as the
 * answered `receive` line that it stands for, so that whoever knows such a line
 * knows an item.
 */
#ifndef ITEMS_H
#define ITEMS_H

#include "answered.h"

/* Hands on each item of a `batch` line, in order, none where the whole call is
 * refused. False where one is not known, or the answer is not whole. */
bool items_each(const struct trace_call *batch,
                const struct trace_call *answer, answered_line *known);

/* What a `batch` line lends. */
struct items_lent {
    size_t lengths, ports, slots, seconds; /* how many of each */
    uint64_t sum;                          /* of the lengths */
    size_t octets, room;
};

/* False where a list holds something else than numbers. */
bool items_lend(const struct trace_call *batch, struct items_lent *lent);

/* Whether a list of routes that is not too long makes it a call that is not
 * refused. */
bool items_fit(const struct items_lent *lent);

#endif
