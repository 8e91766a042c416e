/*
 * messages.c: most messages have few data; a few are as long as can be built,
 * or one octet longer or shorter, and the room to build them in is often just
 * enough or one octet short.
 */
#include "messages.h"

#include <string.h>

#include "numbers.h"
#include "shared/message.h"

static size_t draw_data(size_t fixed, uint32_t rare, struct random *random)
{
    if (random_one_in(random, rare))
        return HJ_MOST_DATA + 1 - fixed - random_below(random, 3);
    return random_below(random, random_one_in(random, 4) ? 200 : 8);
}

void soak_draw_message(struct soak_call *call, struct random *random)
{
    static struct message message;
    bool of_reply = random_one_in(random, 2);

    message_write(&message, of_reply ? MESSAGE_REPLY : MESSAGE_REQUEST,
                  draw_data(of_reply ? MESSAGE_REPLY_OCTETS
                                     : MESSAGE_REQUEST_OCTETS,
                            60, random),
                  random);
    if (random_one_in(random, 2))
        message_spoil(&message, random);
    call->count = message.count;
    memcpy(call->octets, message.octets, message.count);
}

void soak_draw_build(struct soak_call *call, const struct world *world,
                     struct random *random)
{
    size_t fixed = call->which == CALL_BUILD_REPLY ? HJ_REPLY_OCTETS
                                                   : HJ_REQUEST_OCTETS;
    uint32_t off = random_below(random, 8);

    for (int i = 0; i < CALL_MOST_NUMBERS; i++)
        call->numbers[i] = soak_odd_number(world, random);
    call->count = draw_data(fixed, 10, random);
    random_octets(random, call->octets, (uint32_t)call->count);
    call->room = fixed + call->count + (off > 5 ? 7 * off : off % 3) - 1;
    if (random_one_in(random, 8))
        call->room = random_below(random, SOAK_MOST_ROOM + 1);
}
