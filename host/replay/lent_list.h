/*
 * lent_list.h: a list that a batch is lent, of numbers, octets or answers,
 * watched. A stretch before and behind it is set to a5, as all of the answers
 * are, and a copy says what is due.
 */
#ifndef LENT_LIST_H
#define LENT_LIST_H

#include <stdbool.h>
#include <stddef.h>
#include <stdint.h>

#include "shared/trace.h"

#define LENT_LIST_GUARD 64
#define LENT_LIST_MOST (TRACE_MOST_LISTED * sizeof(uint64_t))

struct lent_list {
    size_t octets;
    /* As the widest of the numbers is aligned. */
    uint64_t space[(LENT_LIST_MOST + 2 * LENT_LIST_GUARD) / sizeof(uint64_t)];
    uint64_t due[(LENT_LIST_MOST + 2 * LENT_LIST_GUARD) / sizeof(uint64_t)];
};

/* The list, with what it is to hold; a5 where that is null. */
void *lent_list(struct lent_list *list, const void *content, size_t octets);

/* What was lent. */
void *lent_list_at(struct lent_list *list);

/* So many octets at its front are due as they stand. */
void lent_list_wrote(struct lent_list *list, size_t octets);

/* Whether nothing else of it, or around it, changed. */
bool lent_list_is_due(const struct lent_list *list);

#endif
