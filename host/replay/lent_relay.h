/*
 * lent_relay.h: what calls are lent of a relay, watched: the board, the states
 * of both missions and the list of routes. They last from call to call; words
 * before and behind each never change, and a call that changes what it must
 * not is found out, be it a piece that it was not even lent.
 */
#ifndef LENT_RELAY_H
#define LENT_RELAY_H

#include <stdbool.h>
#include <stdint.h>

#include "shared/library.h"
#include "shared/text.h"

/* All that a call of this mission may be lent, as the last call left it. */
const struct library_lent *lent_relay(uint32_t mission);

/*
 * Adds ` !` where the call since lent_relay changed a word around a piece, or a
 * word of a piece that is not in the set of those that it may change; of the
 * missions' states that is the one whose call it was.
 */
void lent_relay_answer(struct text *answer, enum call_lent may_change);

/* The list anew, with so many empty records. */
void lent_records(uint32_t count);

/* Writes a record of the list as it stands; beyond the list's end none. */
void lent_record(uint32_t place, const hj_record *record);

#endif
