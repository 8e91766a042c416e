/* batches.h: what was reached of batches, beside what their items reached. */
#ifndef COVERAGE_BATCHES_H
#define COVERAGE_BATCHES_H

#include "relay_lists.h"

/* Counts a line, looked at with the view before it; false where it has no good
 * answer. Its items come behind it. */
bool count_batch(const struct view *view, const struct trace_call *call,
                 const struct trace_call *answer);

/* Counts an item of that batch, looked at with the view before the item. */
void count_item(const struct view *view, const struct receipt *receipt);

void say_batches(void);

#endif
