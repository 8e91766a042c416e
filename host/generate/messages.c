/*
 * messages.c: `read_echo` lines of thirteen kinds, from good messages down to
 * random octets, and for each three of them a `build_echo` line. Most are
 * short; some stand at the longest that is built, where half of the lines that
 * build have too little room.
 */
#include "messages.h"

#include "line.h"
#include "shared/message.h"

#define MOST_BUILT 8141

/* Few data, and of so many one at the edge. */
static size_t choose_data(size_t fixed, uint32_t rare, struct random *random)
{
    if (random_one_in(random, rare))
        return MOST_BUILT + 1 - fixed - random_below(random, 3);
    return random_below(random, 12);
}

static void make_request(struct message *message, struct random *random)
{
    message_write(message, MESSAGE_REQUEST,
                  choose_data(MESSAGE_REQUEST_OCTETS, 80, random), random);
}

static void make_reply(struct message *message, struct random *random)
{
    message_write(message, MESSAGE_REPLY,
                  choose_data(MESSAGE_REPLY_OCTETS, 80, random), random);
}

static void make_random(struct message *message, struct random *random)
{
    message->count = random_below(random, 41);
    random_octets(random, message->octets, (uint32_t)message->count);
}

/* Tries the order of the checks. */
static void truncate_and_change(struct message *message, struct random *random)
{
    message_truncate(message, random);
    message_change_form(message, random);
}

static void write_read(uint64_t number, struct random *random)
{
    static const struct {
        treat_message *make;
        treat_message *spoil;
    } KINDS[13] = {{make_request, message_keep},
                   {make_reply, message_keep},
                   {make_request, message_truncate},
                   {make_reply, message_truncate},
                   {make_request, message_flip_bits},
                   {make_reply, message_flip_bits},
                   {make_request, message_change_form},
                   {make_reply, message_change_form},
                   {make_request, message_zero_due},
                   {make_reply, message_zero_due},
                   {make_reply, message_spoil},
                   {make_reply, truncate_and_change},
                   {make_random, message_keep}};
    static struct message message;

    KINDS[number % 13].make(&message, random);
    KINDS[number % 13].spoil(&message, random);
    line_octets(CALL_READ_ECHO, NULL, message.octets, message.count);
}

/* The message's own octets, mostly, or one off them, or any. */
static uint32_t choose_room(uint32_t octets, struct random *random)
{
    static const uint32_t MORE[] = {0, 0, 0, 0, 1, 2, 100};

    if (random_one_in(random, octets > 1000 ? 2 : 6))
        return octets - 1;
    return random_one_in(random, 12) ? random_below(random, octets)
                                     : octets + PICK(MORE);
}

static void write_build(struct random *random)
{
    static const uint16_t EDGES[] = {0, 1, 255, 256, 32768, 65535};
    static uint8_t data[MESSAGE_MOST];
    size_t count = choose_data(MESSAGE_REQUEST_OCTETS, 16, random);
    uint32_t numbers[3]; /* room, identifier, sequence */

    random_octets(random, data, (uint32_t)count);
    numbers[0] = choose_room((uint32_t)count + MESSAGE_REQUEST_OCTETS, random);
    for (int i = 1; i < 3; i++)
        numbers[i] = random_one_in(random, 4) ? PICK(EDGES)
                                              : random_below(random, 65536);
    line_octets(CALL_BUILD_REQUEST, numbers, data, count);
}

void write_messages(uint64_t count, struct random *random)
{
    for (uint64_t i = 0; i < count; i++) {
        write_read(i, random);
        if (i % 3 == 2)
            write_build(random);
    }
}
