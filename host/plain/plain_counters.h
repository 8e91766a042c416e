/* The eighteen counters, each modulo 2^32. */
#ifndef PLAIN_COUNTERS_H
#define PLAIN_COUNTERS_H

#include <stdint.h>

#include "plain_numbers.h"

typedef enum {
    PLAIN_IN_RECEIVES = 0,
    PLAIN_IN_BAD_LENGTH = 1,
    PLAIN_IN_BAD_VERSION = 2,
    PLAIN_IN_BAD_ADDRESS = 3,
    PLAIN_IN_BAD_CHECKSUM = 4,
    PLAIN_UNSUPPORTED = 5,
    PLAIN_IN_ADDR_ERRORS = 6,
    PLAIN_IN_UNKNOWN_PROTOS = 7,
    PLAIN_IN_DELIVERS = 8,
    PLAIN_FORW_HOP_DISCARD = 9,
    PLAIN_FORW_DATAGRAMS = 10,
    PLAIN_OUT_NO_ROUTES = 11,
    PLAIN_OUT_DISCARDS = 12,
    PLAIN_LEFT_DOMAIN = 13,
    PLAIN_TOO_BIG_COUNT = 14,
    PLAIN_FLOOD_UNMARKED_COUNT = 15,
    PLAIN_PAIRS_HELD_COUNT = 16,
    PLAIN_OUT_REQUESTS = 17, /* echo replies, sent or refused */
    PLAIN_COUNTERS = 18
} plain_counter;

typedef struct { uint32_t counts[PLAIN_COUNTERS]; } plain_counters;

void plain_count(plain_counters *counters, plain_counter counter);

/* One in the counter of a refusal, 1 to 15, 26, 28 or 30, of a datagram that
 * was received or of an echo reply; none where it has no counter. */
void plain_count_refusal(plain_counters *counters, plain_refusal refusal);

#endif
