/*
 * list.h: what counts in a list of records, judged by the board's words as they
 * stand, garbage included (docs/STATES.md).
 */
#ifndef LIST_H
#define LIST_H

#include <stdbool.h>

#include "shared/library.h"

/* Whether the mission of this number has the port. */
bool list_has_port(const hj_board *board, uint32_t mission, uint32_t port);

/* The longest that counts for the mission whose state is lent, of those that
 * are up, or of all; NULL for none. */
const hj_record *list_longest(const struct library_lent *lent,
                              uint32_t address, bool of_all);

/* What a set_route of these numbers, at a place of the list, has to answer. */
uint32_t list_setting(const struct library_lent *lent,
                      const uint32_t *numbers);

#endif
