/*
 * headers.h: the headers that are due in the output of a received datagram, on
 * whatever words and records.
 */
#ifndef SOAK_HEADERS_H
#define SOAK_HEADERS_H

#include "call.h"
#include "plain/plain_header.h"
#include "shared/library.h"

/* A datagram and its verdict, with the words before the call. */
struct soak_judged {
    const struct soak_call *call;
    const struct soak_answer *answer;
    const plain_header *came;
    const struct library_lent *due;
};

static inline const uint32_t *soak_port_words(const struct soak_judged *sent,
                                              uint32_t port)
{
    return sent->due->board->words + SOAK_PORTS_AT + SOAK_PORT_WORDS * port;
}

/* An address that came, as four octets. */
uint32_t soak_filled_in(const struct soak_judged *sent, plain_wide address);

/* Octets of the header for a port, where no route adds to it. */
uint32_t soak_octets_without_route(const struct soak_judged *sent,
                                   uint32_t port);

/*
 * Writes to the output the header of each port that took an entry, by the
 * header that came and by what the answer says of lengths and of rewritten
 * ones. What is wrong with that, or NULL.
 */
const char *soak_headers(const struct soak_judged *sent, uint8_t *output);

#endif
