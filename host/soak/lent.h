/*
 * lent.h: a piece of memory that is lent to a call, with guard octets just
 * before it and just after it, and a second copy of it all, which is made what
 * is due. A fenced piece has no guard after it but memory that can not even be
 * read, so that a call which reads too far is ended by the machine.
 */
#ifndef SOAK_LENT_H
#define SOAK_LENT_H

#include <stdbool.h>
#include <stddef.h>
#include <stdint.h>

#define LENT_GUARD 64

struct soak_lent {
    uint8_t *end; /* the memory that can not be read begins here */
    uint8_t *due; /* guard, octets, guard */
    uint8_t *at;
    size_t octets;
    bool fenced;
};

/* Memory for a piece of at most so many octets; false where there is none. */
bool soak_lent_make(struct soak_lent *lent, size_t most);

/* Lends so many octets, all of one value at first. */
void soak_lent_begin(struct soak_lent *lent, size_t octets, bool fenced,
                     uint8_t value);

/* What is due: the piece as it stands. Said when its content was written. */
void soak_lent_keep(struct soak_lent *lent);

/* Where the call may look; NULL for a fenced piece of no octets. */
void *soak_lent_piece(const struct soak_lent *lent);
void *soak_lent_due(const struct soak_lent *lent);

/* Whether the piece and its guards are as is due. */
bool soak_lent_is_due(const struct soak_lent *lent);

#endif
