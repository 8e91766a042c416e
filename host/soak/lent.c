/*
 * lent.c: the memory of a piece ends at a page that can not be read. A piece is
 * put against that page, or a guard away from it. Pages are taken to be of 64
 * KiB, which is a whole number of pages everywhere.
 */
#define _DEFAULT_SOURCE

#include "lent.h"

#include <stdlib.h>
#include <string.h>
#include <sys/mman.h>

#define PAGE ((size_t)65536)
#define UNTOUCHED 0xa5

bool soak_lent_make(struct soak_lent *lent, size_t most)
{
    size_t room = (most + 2 * LENT_GUARD + PAGE - 1) / PAGE * PAGE;
    void *pages = mmap(NULL, room + PAGE, PROT_READ | PROT_WRITE,
                       MAP_PRIVATE | MAP_ANONYMOUS, -1, 0);

    if (pages == MAP_FAILED)
        return false;
    lent->end = (uint8_t *)pages + room;
    lent->due = (uint8_t *)malloc(room);
    return lent->due != NULL && mprotect(lent->end, PAGE, PROT_NONE) == 0;
}

/* Octets of the piece with the guards that it has. */
static size_t guarded(const struct soak_lent *lent)
{
    return LENT_GUARD + lent->octets + (lent->fenced ? 0 : LENT_GUARD);
}

void soak_lent_begin(struct soak_lent *lent, size_t octets, bool fenced,
                     uint8_t value)
{
    lent->octets = octets;
    lent->fenced = fenced;
    lent->at = lent->end - octets - (fenced ? 0 : LENT_GUARD);
    memset(lent->at - LENT_GUARD, UNTOUCHED, guarded(lent));
    memset(lent->at, value, octets);
    soak_lent_keep(lent);
}

void soak_lent_keep(struct soak_lent *lent)
{
    memcpy(lent->due, lent->at - LENT_GUARD, guarded(lent));
}

void *soak_lent_piece(const struct soak_lent *lent)
{
    return lent->octets == 0 && lent->fenced ? NULL : lent->at;
}

void *soak_lent_due(const struct soak_lent *lent)
{
    return lent->due + LENT_GUARD;
}

bool soak_lent_is_due(const struct soak_lent *lent)
{
    return memcmp(lent->due, lent->at - LENT_GUARD, guarded(lent)) == 0;
}
