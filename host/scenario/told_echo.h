/* told_echo.h: what is told of echo messages, behind the arrival. */
#ifndef TOLD_ECHO_H
#define TOLD_ECHO_H

#include "nodes.h"

/* A request was answered, by what is kept, and by which counters before; or
 * was not, and why. */
void told_answer(const struct node *node, uint32_t mission,
                 const struct kept *kept, const uint32_t *before);
void told_no_answer(const char *why);
/* A reply came back to where it belongs. */
void told_reply(const struct datagram *came, const hj_message *message);

#endif
