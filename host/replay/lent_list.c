/*
 * lent_list.c: the list stands between its guards, so that one just behind its
 * last number shows a write there, however long it is.
 */
#include "lent_list.h"

#include <string.h>

#include "lent.h"

static uint8_t *behind_guard(uint64_t *space)
{
    return (uint8_t *)space + LENT_LIST_GUARD;
}

static size_t guarded(const struct lent_list *list)
{
    return LENT_LIST_GUARD + list->octets + LENT_LIST_GUARD;
}

void *lent_list(struct lent_list *list, const void *content, size_t octets)
{
    list->octets = octets;
    memset(list->space, LENT_UNTOUCHED, guarded(list));
    if (content != NULL)
        memcpy(behind_guard(list->space), content, octets);
    memcpy(list->due, list->space, guarded(list));
    return behind_guard(list->space);
}

void *lent_list_at(struct lent_list *list)
{
    return behind_guard(list->space);
}

void lent_list_wrote(struct lent_list *list, size_t octets)
{
    memcpy(behind_guard(list->due), behind_guard(list->space), octets);
}

bool lent_list_is_due(const struct lent_list *list)
{
    return memcmp(list->due, list->space, guarded(list)) == 0;
}
