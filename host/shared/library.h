/* library.h: a call of the library, made by its numbers on what is lent. */
#ifndef LIBRARY_H
#define LIBRARY_H

#include <stddef.h>

#include "calls.h"
#include "harpjuniper.h"

/* What a call may be lent, and the numbers of words and records. */
struct library_lent {
    hj_board *board;
    size_t board_words;
    hj_mission *mission;
    size_t mission_words;
    hj_record *routes;
    size_t route_count;
};

/* Makes a call that is lent something of a relay and takes nothing but numbers,
 * which is each but hj_receive_at, hj_receive_many and hj_echo; gives what it
 * returned. */
uint64_t library_call(enum call call, const struct library_lent *lent,
                      const uint32_t *numbers);

#endif
