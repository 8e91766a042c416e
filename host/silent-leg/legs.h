/* legs.h: the legs of one way, and which of them answered. */
#ifndef LEGS_H
#define LEGS_H

#include "matches.h"

/* A hop count of 255, seen as 0. */
#define MOST_LEGS 256

struct leg {
    uint32_t asked;    /* requests that its relay should have answered */
    uint32_t answered; /* those that it did answer */
    uint32_t unclear;  /* replies that fit a request of another way too */
    const struct echo *request, *reply; /* the first of these; null for none */
};

struct legs {
    const struct echo *first; /* the first request of this way and run */
    struct leg of[MOST_LEGS + 1]; /* from 1 on */
    uint32_t furthest;            /* the last one that was asked */
    uint32_t last;                /* the last one that answered, 0 for none;
                                     unclear replies count */
    uint32_t unclear;             /* replies, of all legs */
    bool arrived;                 /* that is the destination */
    uint32_t unanswered;          /* without intermediate delivery */
};

/* From the end of which leg the reply to the request comes. */
uint32_t legs_number(const struct echo *request, const struct echo *reply);
/* The legs of the way that the request goes, in its run. */
void legs_find(const struct echo *first, struct legs *legs);
/* The leg at which silence begins; 0 where it does not. */
uint32_t legs_silent(const struct legs *legs);
/* Whether a leg before the last that answered did not. */
bool legs_is_skipped(const struct legs *legs, uint32_t leg);
bool legs_any_skipped(const struct legs *legs);
/* Whether some request up to the last leg that answered was not answered. */
bool legs_any_missing(const struct legs *legs);
/* The first leg whose relay has answered on an earlier one; 0 for none. */
uint32_t legs_ring(const struct legs *legs, uint32_t *earlier);

#endif
