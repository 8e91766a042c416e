/*
 * lent.h: the output that a call is lent, watched. Every octet of it, and a
 * stretch before and behind it, is set to a5 before the call, so that a write
 * where none is promised shows.
 */
#ifndef LENT_H
#define LENT_H

#include <stdbool.h>
#include <stddef.h>
#include <stdint.h>

#include "shared/text.h"

/* The largest output of a trace; the library itself has no such limit. */
#define LENT_MOST_ROOM 65535
/* What every octet of it is before the call. */
#define LENT_UNTOUCHED 0xa5

uint8_t *lent_output(size_t room);

/*
 * Adds the octets at the front that the call was to write, `-` for none, and
 * ` !` where it changed any other octet.
 */
void lent_answer(struct text *answer, size_t room, size_t written);

/*
 * Of the output that a datagram has, which is so much room from there on, adds
 * the stretch of each port of the set, the octets at its end that did not
 * change cut off; `-` for no port. Then ` !` where the call changed an octet of
 * that room that is in no port's header, each of them as long as it is said to
 * be.
 */
void lent_headers(struct text *answer, size_t from, size_t room,
                  uint32_t ports, const uint32_t *header_octets);

/* Whether the octets of the output behind a place, and those around it all, did
 * not change. */
bool lent_rest_is_kept(size_t from, size_t room);

#endif
