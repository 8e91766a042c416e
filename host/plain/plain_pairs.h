/*
 * What flood routing remembers (page 02, W-207): the last second accepted and
 * the pairs of source and timestamp by which a flooded datagram is known when
 * it comes again.
 */
#ifndef PLAIN_PAIRS_H
#define PLAIN_PAIRS_H

#include "plain_relay.h"

/* What became of a pair that was entered. */
typedef enum {
    PLAIN_PAIR_KEPT,
    PLAIN_PAIR_KNOWN,   /* held already, and no younger for it */
    PLAIN_PAIR_NO_PLACE /* all places are held by others */
} plain_pair_fate;

/* Accepts the second, or 29 where it is under the last one. */
plain_refusal plain_second_accept(plain_mission *mission, uint32_t second);

/* Keeps the pair in the lowest free place, unless it is held or there is no
 * such place; nothing is changed then. */
plain_pair_fate plain_pairs_enter(plain_mission *mission,
                                  const plain_pair *pair);

#endif
