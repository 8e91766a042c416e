/* ours.h: the calls of the bench on the library. */
#ifndef OURS_H
#define OURS_H

#include "call.h"

/* Each makes bench_call, and leaves the answer there; null where the call is
 * not measured. */
extern void (*const bench_ours[CALLS])(void);

/* Makes bench_batch in one call. */
void bench_ours_many(void);

/* Notes the mission's state before the items of a batch; makes it that again,
 * once they were made one by one; and says whether the one call left the same
 * words, answers and headers as they did. */
void bench_ours_before(void);
void bench_ours_after_item(size_t item);
void bench_ours_again(void);
bool bench_ours_alike(void);

/* Makes a bench_call that sets. */
void bench_ours_set(void);

/* Makes board and missions fresh; the records of the list empty. */
void bench_ours_new(void);
void bench_ours_records(void);

/* The octets of a board and two missions' states, and of a record. */
size_t bench_our_state(void);
size_t bench_our_record(void);

#endif
