/*
 * floods.h: what is due of floods and sweeps on whatever words, garbage
 * included (docs/STATES.md): a place whose format is 0 is free, whatever else
 * it holds, and one with any other number is held.
 */
#ifndef SOAK_FLOODS_H
#define SOAK_FLOODS_H

#include "headers.h"

static inline bool soak_is_flooded(const plain_header *came)
{
    return came->fields.routing == PLAIN_ROUTING_FLOOD;
}

/* Whether it lacks a source or a timestamp. */
static inline bool soak_is_unmarked(const plain_header *came)
{
    return !came->fields.source_present || came->fields.stamp_format == 0;
}

/* Makes of the pairs before a flood what is due after it; says what does not
 * hold of its onward half, or NULL. */
const char *soak_flood(const struct soak_judged *sent);

/* Likewise of a sweep, which accepts its second. */
void soak_sweep(const struct library_lent *due, uint32_t second);

/* Whether there is such a place and it is held, and how many are. */
bool soak_is_held(const hj_mission *mission, uint32_t place);
uint32_t soak_held(const hj_mission *mission);

#endif
