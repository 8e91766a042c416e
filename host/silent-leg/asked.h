/* asked.h: what the arguments ask for. */
#ifndef ASKED_H
#define ASKED_H

#include <stdint.h>

#include "shared/options.h"

#define MOST_WORDS 4
#define MOST_RATES 255

struct asked {
    const char *words[MOST_WORDS]; /* the arguments that are no settings */
    uint32_t word_count;
    const char *scene;    /* null where none is said */
    const char *for_net;  /* the last setting that a net alone has; or null */
    uint32_t hops;             /* the greatest hop count to send */
    uint32_t octets;           /* of data in each request */
    uint32_t identifier;       /* of the requests */
    uint32_t rates[MOST_RATES]; /* bits a second, of leg 1 and so on */
    uint32_t rate_count;
};

/* OPTIONS_GO_ON, or 2 where an argument is not understood, which was said. */
int asked_read(const struct program *program, char **arguments,
               struct asked *asked);

#endif
