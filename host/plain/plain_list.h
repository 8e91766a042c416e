/*
 * The list of routes, which both missions are lent and which may hold anything:
 * page 01, "Rules that later work keeps", and page 02, W-208.
 */
#ifndef PLAIN_LIST_H
#define PLAIN_LIST_H

#include "plain_relay.h"

static inline bool plain_list_too_long(size_t count)
{
    return count > PLAIN_ROUTES;
}

/* What the board's ports and the record's own numbers refuse it by: 21, 22 or
 * 24, or 0. Whether it is filled does not matter. */
plain_refusal plain_record_judge(const plain_board *board,
                                 const plain_record *record);

/* The lowest place with the same prefix, mask and mission that is filled and
 * not refused; the list's count where there is none. */
size_t plain_list_holder(const plain_board *board, plain_routes routes,
                         const plain_record *record);

/* The mission's route with most mask ones among all that count, are up and
 * match; null where there is none. */
const plain_record *plain_list_longest(const plain_board *board,
                                       uint32_t mission, plain_routes routes,
                                       plain_address destination);

#endif
