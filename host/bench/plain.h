/* plain.h: the calls of the bench on host/plain. */
#ifndef PLAIN_H
#define PLAIN_H

#include "call.h"

/* Each makes bench_call, and leaves the answer there; null where the call is
 * not measured. */
extern void (*const bench_plain[CALLS])(void);

/* Makes a bench_call that sets. */
void bench_plain_set(void);

/* Makes board and missions fresh; the records of the list empty. */
void bench_plain_new(void);
void bench_plain_records(void);

/* The octets of a board and two missions' states, and of a record. */
size_t bench_plain_state(void);
size_t bench_plain_record(void);

#endif
