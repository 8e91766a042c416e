/*
 * library.c: one case for each call, written from calls.def, so that a new one
 * needs none here. A call that is made otherwise is a fault of the program that
 * asks for it, and ends it.
 */
#include "library.h"

#include <stdlib.h>

/* What a call is lent. */
#define PASS_B lent->board, lent->board_words
#define PASS_M lent->mission, lent->mission_words
#define PASS_R lent->routes, lent->route_count
#define PASS_BM PASS_B, PASS_M
#define PASS_BR PASS_B, PASS_R
#define PASS_BMR PASS_B, PASS_M, PASS_R

/* The numbers of a call, as many as it takes. */
#define NUMBERS_0
#define NUMBERS_1 , n[0]
#define NUMBERS_2 NUMBERS_1, n[1]
#define NUMBERS_4 NUMBERS_2, n[2], n[3]
#define NUMBERS_5 NUMBERS_4, n[4]
#define NUMBERS_7 NUMBERS_5, n[5], n[6]

#define CASE(NAME, function, lends, numbers)                                  \
    case CALL_##NAME:                                                         \
        return hj_##function(PASS_##lends NUMBERS_##numbers);
#define NO_CASE(NAME, function, lends, numbers)
#define CASE_FRESH CASE
#define CASE_SETTING CASE
#define CASE_CLEARING CASE
#define CASE_LOOK CASE
#define CASE_STATELESS NO_CASE
#define CASE_DATAGRAM NO_CASE

uint64_t library_call(enum call call, const struct library_lent *lent,
                      const uint32_t *n)
{
    switch (call) {
#define WORD(NAME, function, kind, object, lends, numbers, ...)               \
    CASE_##kind(NAME, function, lends, numbers)
#define CALL(NAME, function, kind, object, lends, numbers, ...)               \
    CASE_##kind(NAME, function, lends, numbers)
#include "calls.def"
        CASE(TAKE, take, BM, 1)
    default:
        abort();
    }
}
