/*
 * echoes.h: what is due of an echo request, on whatever words and records: the
 * reply to the octet, or none.
 */
#ifndef SOAK_ECHOES_H
#define SOAK_ECHOES_H

#include "headers.h"

struct soak_reply {
    uint32_t onward;     /* HJ_NO_REPLY, HJ_SENT_ON, or 11, 14 or 15 */
    uint32_t port;       /* that it goes to; 0 where there is none */
    uint32_t precedence; /* the request's */
    size_t count;        /* as it is sent */
    uint8_t octets[HJ_MOST_LENGTH + HJ_HEADER_ROOM];
};

/* Of a call whose port is set up for the mission and whose room is enough. */
void soak_reply_due(const struct soak_call *call,
                    const struct library_lent *due, struct soak_reply *reply);

#endif
