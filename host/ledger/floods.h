/*
 * floods.h: the books of floods, of each mission: the last second that was
 * accepted and the pairs that are kept, from the calls and answers alone. So a
 * pair is kept once and not again before a sweep frees it: between two frees at
 * most one of its datagrams goes on.
 */
#ifndef LEDGER_FLOODS_H
#define LEDGER_FLOODS_H

#include <stdbool.h>
#include <stdint.h>

#include "shared/arriving.h"
#include "shared/trace.h"

/* A received datagram and its answer. */
struct floods_receipt {
    uint32_t second, source; /* the source as four octets */
    const struct arriving *came;
    uint32_t refusal, local, onward;
};

/* No pair is kept, and the lifetime and every last second are 0. */
void floods_begin(void);
void floods_set_lifetime(uint32_t lifetime);

/* Each books a call of a mission; what is wrong with its answer, or null. */
const char *floods_receive(uint32_t mission,
                           const struct floods_receipt *receipt);
const char *floods_sweep(uint32_t mission, uint32_t second, uint32_t refusal);

/* Whether the answer of a `pairs` line is what is kept. */
bool floods_are(uint32_t mission, struct trace_word pairs);

#endif
