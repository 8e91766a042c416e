/*
 * The SCMP messages Echo Request and Echo Reply (CCSDS 713.0-B-1, 3.3.2 and
 * 3.3.4.7): reading them and building them.
 *
 * One structure holds both. Its numbers are as wide as their fields, so every
 * one of them can be built. The data are not copied: the structure says where
 * they stand.
 */
#ifndef PLAIN_MESSAGE_H
#define PLAIN_MESSAGE_H

#include <stddef.h>
#include <stdint.h>

#include "plain_numbers.h"

enum {
    PLAIN_REQUEST_FIXED = 8, /* octets before the data */
    PLAIN_REPLY_FIXED = 26
};

typedef enum {
    PLAIN_ECHO_REPLY = 0,
    PLAIN_ECHO_REQUEST = 8
} plain_message_type;

typedef struct {
    plain_message_type type;
    uint16_t identifier;
    uint16_t sequence;
    /* The next five of a reply alone; 0 in a request that was read. */
    uint8_t hops;       /* of the request as it came */
    uint8_t format;     /* of its timestamp, in the lowest two bits */
    uint64_t timestamp; /* its octets as one number, P-field included */
    uint32_t mtu;       /* of the port by which it came */
    uint32_t rate;
    const uint8_t *data;
    size_t data_octets;
} plain_message;

/* Answers 0, or 1, 4 or 5: message is written only with 0, and its data stand
 * among the octets. */
plain_refusal plain_message_read(const uint8_t *octets, size_t count,
                                 plain_message *message);

/* Each builds the message of its type, whatever type the structure says, and
 * answers 0, or 17 or 20 with nothing written; written is how many octets the
 * message has. The data must not overlap the output. */
plain_refusal plain_request_build(const plain_message *request,
                                  uint8_t *output, size_t room,
                                  size_t *written);
plain_refusal plain_reply_build(const plain_message *reply, uint8_t *output,
                                size_t room, size_t *written);

/* Writes a reply that is known to fit. */
void plain_reply_write(const plain_message *reply, uint8_t *output);

#endif
