/*
 * message.h: an echo message to try (003, 3.3.4.7), written as octets. It is
 * good when written, and may then be spoiled. Like form.h it is a writing of
 * its own, beside the library's and the plain one.
 */
#ifndef MESSAGE_H
#define MESSAGE_H

#include <stddef.h>
#include <stdint.h>

#include "random.h"

#define MESSAGE_REPLY 0
#define MESSAGE_REQUEST 8
/* Octets before the data of a request and of a reply. */
#define MESSAGE_REQUEST_OCTETS 8
#define MESSAGE_REPLY_OCTETS 26
/* Over what a datagram can carry. */
#define MESSAGE_MOST 8200

struct message {
    size_t count;
    uint8_t octets[MESSAGE_MOST];
};

/* A good message of the type with so much data; all else in it is random. */
void message_write(struct message *message, uint8_t type, size_t data,
                   struct random *random);

/* What may be done to a good message. */
typedef void treat_message(struct message *message, struct random *random);

treat_message message_keep;
treat_message message_flip_bits;
treat_message message_truncate;
/* Another type or code, with the checksum made right. */
treat_message message_change_form;
treat_message message_wrong_checksum;
/* A checksum that is due to be 0000, with 0000 or FFFF carried. */
treat_message message_zero_due;
/* One of these, or two. */
treat_message message_spoil;

#endif
