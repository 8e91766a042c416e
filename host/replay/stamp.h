/*
 * stamp.h: a timestamp as the trace form writes it: its octets, in format 2 the
 * P-field first.
 */
#ifndef STAMP_H
#define STAMP_H

#include <stdint.h>

#include "shared/text.h"

/* Octets of the time field; the P-field octet is not among them. */
unsigned stamp_time_octets(uint32_t format, uint32_t p_field);

/* Adds the octets, `-` for format 0 and for one that is none. */
void stamp_add(struct text *answer, uint32_t format, uint32_t p_field,
               uint64_t time);

#endif
