/* floods.h: what was reached of floods, seconds, sweeps and pairs. */
#ifndef COVERAGE_FLOODS_H
#define COVERAGE_FLOODS_H

#include "relay_lists.h"

/* Each counts a line, looked at with the view before it. */
void count_second(const struct view *view, const struct receipt *receipt);
void count_flood(const struct view *view, const struct receipt *receipt);
void count_sweep(const struct view *view, uint32_t second, uint32_t number);
/* False where the view holds another number of pairs. */
bool count_pairs(const struct view *view, const struct trace_call *answer);

void say_floods(void);

#endif
