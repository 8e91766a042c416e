/* echoes.h: the echo requests and replies that were seen, as they were read. */
#ifndef ECHOES_H
#define ECHOES_H

#include <stdbool.h>
#include <stddef.h>
#include <stdint.h>

#include "harpjuniper.h"

struct echo {
    uint32_t octets;  /* of the datagram */
    hj_fields fields; /* of its header */
    hj_message says;
    const uint8_t *message; /* the octets behind the header */
    uint32_t message_octets;
    uint32_t run; /* of a request: which run of its way, from 0 on */
};

struct echoes {
    struct echo *first; /* null at first */
    uint32_t count, room;
};

/* In the order in which they were seen. */
extern struct echoes requests, replies;

/* Takes a datagram in. Answers HJ_DONE, or the number by which the library
 * refuses it. What is no echo message, and what was seen before, is counted and
 * passed over. */
uint32_t echoes_take(const uint8_t *octets, size_t count);
uint32_t echoes_others(void);
uint32_t echoes_repeats(void);

/* Whether two requests belong to one run of one way. A way is identifier,
 * source and destination; in a run no sequence number comes twice. */
bool echoes_are_one_run(const struct echo *one, const struct echo *other);

#endif
