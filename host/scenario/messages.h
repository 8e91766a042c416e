/* messages.h: datagrams put together, and the echo messages in them. */
#ifndef MESSAGES_H
#define MESSAGES_H

#include "nodes.h"

/* A datagram with these fields and data; the number by which hj_build refuses
 * them, or HJ_DONE. */
uint32_t datagram_build(const hj_fields *fields, const uint8_t *data,
                        uint32_t octets, struct datagram *datagram);
/* An echo request with so many octets of data, at most MOST_DATA; answers the
 * octets of the message, of which there is room for MOST_USER_DATA. */
uint32_t message_request(uint16_t identifier, uint16_t sequence,
                         uint32_t octets, uint8_t *message);
/* Whether a datagram carries an echo request or reply, and what it says. */
bool message_of(const struct datagram *datagram, hj_message *message);
/* Whether it carries an echo request. */
bool message_asks(const struct datagram *datagram);
/* Octets of data behind the message's own. */
uint32_t message_data(const struct datagram *datagram,
                      const hj_message *message);

#endif
