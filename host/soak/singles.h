/*
 * singles.h: a batch taken apart: what refuses it, its items, and these made as
 * single calls.
 */
#ifndef SOAK_SINGLES_H
#define SOAK_SINGLES_H

#include "pieces.h"

/* What refuses the whole call: 21 or 27, and 0 for nothing. */
uint32_t soak_batch_refusal(const struct soak_call *call);

/* The items that are heard: none where the whole call is refused. */
size_t soak_batch_items(const struct soak_call *call);

/* An item as a call of its own. */
void soak_batch_item(const struct soak_call *call, size_t which,
                     struct soak_call *item);

/* Makes the items as single calls, on a copy of what stands before the call. */
void soak_make_singles(const struct soak_call *call,
                       const struct soak_pieces *before);

/* What of the call is not what these left, or NULL. */
const char *soak_unlike_singles(const struct soak_call *call,
                                const struct soak_answer *answer,
                                const struct soak_pieces *after);

#endif
