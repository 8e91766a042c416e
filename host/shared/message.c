/*
 * message.c: writing an echo message, and what may be done to it.
 *
 * The awkward case is a checksum of 0000, which chance would hardly ever hit:
 * the identifier is chosen for it.
 */
#include "message.h"

#include <string.h>

#include "form.h"

#define CHECKSUM_AT 2
#define IDENTIFIER_AT 4

static void carry(struct message *message, uint16_t checksum)
{
    message->octets[CHECKSUM_AT] = (uint8_t)(checksum >> 8);
    message->octets[CHECKSUM_AT + 1] = (uint8_t)checksum;
}

/* With its own place as zero. */
static uint16_t checksum_due(struct message *message)
{
    carry(message, 0);
    return form_checksum(message->octets, message->count);
}

void message_write(struct message *message, uint8_t type, size_t data,
                   struct random *random)
{
    message->count = data + (type == MESSAGE_REPLY ? MESSAGE_REPLY_OCTETS
                                                   : MESSAGE_REQUEST_OCTETS);
    random_octets(random, message->octets, (uint32_t)message->count);
    message->octets[0] = type;
    message->octets[1] = 0;
    carry(message, checksum_due(message));
}

void message_keep(struct message *message, struct random *random)
{
    (void)message;
    (void)random;
}

void message_flip_bits(struct message *message, struct random *random)
{
    for (uint32_t flips = 1 + random_below(random, 2);
         flips > 0 && message->count > 0; flips--) {
        uint32_t bit = random_below(random, 8 * (uint32_t)message->count);

        message->octets[bit / 8] ^= (uint8_t)(128 >> bit % 8);
    }
}

/* Often around the octets before the data, and often with the checksum made
 * right, so that the length alone decides. */
void message_truncate(struct message *message, struct random *random)
{
    static const uint8_t AROUND[] = {0, 1, 3, 4, 7, 8, 9, 24, 25, 26, 27};
    size_t count = PICK(AROUND);

    if (random_one_in(random, 3))
        count = random_below(random, (uint32_t)message->count + 1);
    if (count < message->count)
        message->count = count;
    if (message->count >= IDENTIFIER_AT && !random_one_in(random, 3))
        carry(message, checksum_due(message));
}

void message_change_form(struct message *message, struct random *random)
{
    static const uint8_t TYPES[] = {0, 3, 4, 5, 8, 11, 12, 19, 1, 7, 9, 255};

    if (message->count < IDENTIFIER_AT)
        return;
    if (random_one_in(random, 2))
        message->octets[0] = PICK(TYPES);
    else
        message->octets[1] = (uint8_t)(1u << random_below(random, 8));
    carry(message, checksum_due(message));
}

void message_wrong_checksum(struct message *message, struct random *random)
{
    static const uint16_t CARRIED[] = {0x0000, 0xffff, 0x00ff, 0xff00};

    if (message->count >= IDENTIFIER_AT)
        carry(message, PICK(CARRIED));
}

void message_zero_due(struct message *message, struct random *random)
{
    uint16_t rest;

    if (message->count < MESSAGE_REQUEST_OCTETS)
        return;
    memset(message->octets + IDENTIFIER_AT, 0, 2);
    rest = checksum_due(message);
    message->octets[IDENTIFIER_AT] = (uint8_t)(rest >> 8);
    message->octets[IDENTIFIER_AT + 1] = (uint8_t)rest;
    carry(message, random_one_in(random, 2) ? 0x0000 : 0xffff);
}

void message_spoil(struct message *message, struct random *random)
{
    static treat_message *const WAYS[] = {
        message_flip_bits, message_truncate, message_change_form,
        message_wrong_checksum, message_zero_due};

    PICK(WAYS)(message, random);
    if (random_one_in(random, 4))
        PICK(WAYS)(message, random);
}
