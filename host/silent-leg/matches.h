/* matches.h: which request a reply answers. */
#ifndef MATCHES_H
#define MATCHES_H

#include "echoes.h"

enum fit {
    NO_FIT,
    FITS,            /* the reply may come from a relay on the way */
    FITS_DESTINATION /* it comes from the request's destination */
};

/* The requests that fit a reply best. With more than one it is not clear which
 * of them is answered. */
struct match {
    enum fit fit;
    uint32_t count;             /* 0 where none fits */
    const struct echo *request; /* the first of them */
};

enum fit matches_fit(const struct echo *reply, const struct echo *request);
struct match matches_find(const struct echo *reply);

#endif
