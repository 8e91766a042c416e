/* replies.h: the echo replies that came back, and what they say. */
#ifndef REPLIES_H
#define REPLIES_H

#include "nodes.h"

struct reply {
    uint32_t node;   /* that it came back to */
    uint32_t source; /* who answered, as four octets */
    uint32_t data;   /* octets of data that it brings back */
    hj_message says;
    struct datagram came;
};

/* A scene begins: what came back before is not looked at any more. */
void replies_scene(void);
/* A reply was delivered that came by the port. */
void replies_note(uint32_t node, uint32_t port, const struct datagram *came,
                  const hj_message *message);
uint32_t replies_count(void);
const struct reply *reply_at(uint32_t which);
/* Each reads the rest of its line, and says whether it holds of the node. */
bool replies_expect_one(uint32_t node);
bool replies_expect_count(uint32_t node);

#endif
