/* replies.h: what a reply says, held against the request that it answers. */
#ifndef LEDGER_REPLIES_H
#define LEDGER_REPLIES_H

#include <stddef.h>
#include <stdint.h>

/* What is wrong with the octets that go out by a port as a reply to those that
 * came by the arrival port; null for nothing. */
const char *reply_wrong(uint32_t arrival, const uint8_t *request, size_t lent,
                        uint32_t port, const uint8_t *reply, size_t count);

#endif
