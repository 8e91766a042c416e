/*
 * Reading and building echo messages. Type, code, checksum, identifier and
 * sequence number come first in both; then a reply has its own fields; the
 * data are what is left.
 *
 * The awkward case: the checksum stands in the message that it covers. It is
 * computed around itself, so that nothing has to be set to zero first, and
 * octets lent for reading can be checked where they stand.
 */
#include "plain_message.h"

#include <stdbool.h>
#include <string.h>

#include "plain_checksum.h"
#include "plain_wire.h"

enum { CODE = 0, CHECKSUM_AT = 2, IDENTIFIER_AT = 4 };

static bool type_known(uint8_t type)
{
    return type == PLAIN_ECHO_REPLY || type == PLAIN_ECHO_REQUEST;
}

static void take_reply_fields(const uint8_t *at, plain_message *message)
{
    message->hops = at[0];
    message->format = at[1];
    message->timestamp = plain_number_at(at + 2, 8);
    message->mtu = (uint32_t)plain_number_at(at + 10, 4);
    message->rate = (uint32_t)plain_number_at(at + 14, 4);
}

static void take_message(const uint8_t *octets, size_t count,
                         plain_message *message)
{
    size_t fixed = PLAIN_REQUEST_FIXED;

    memset(message, 0, sizeof *message);
    message->type = (plain_message_type)octets[0];
    message->identifier =
        (uint16_t)plain_number_at(octets + IDENTIFIER_AT, 2);
    message->sequence =
        (uint16_t)plain_number_at(octets + IDENTIFIER_AT + 2, 2);
    if (message->type == PLAIN_ECHO_REPLY) {
        take_reply_fields(octets + PLAIN_REQUEST_FIXED, message);
        fixed = PLAIN_REPLY_FIXED;
    }
    message->data = octets + fixed;
    message->data_octets = count - fixed;
}

plain_refusal plain_message_read(const uint8_t *octets, size_t count,
                                 plain_message *message)
{
    if (count < PLAIN_REQUEST_FIXED)
        return PLAIN_SHORT;
    if (!type_known(octets[0]) || octets[1] != CODE)
        return PLAIN_BAD_FORM;
    if (octets[0] == PLAIN_ECHO_REPLY && count < PLAIN_REPLY_FIXED)
        return PLAIN_SHORT;
    if (plain_number_at(octets + CHECKSUM_AT, 2) !=
        plain_checksum_around(octets, count, CHECKSUM_AT))
        return PLAIN_BAD_CHECKSUM;
    take_message(octets, count, message);
    return PLAIN_GOOD;
}

/* What both messages begin with; answers the place after it. */
static uint8_t *put_beginning(uint8_t *output, plain_message_type type,
                              const plain_message *message)
{
    uint8_t *at = output + IDENTIFIER_AT;

    output[0] = (uint8_t)type;
    output[1] = CODE;
    at = plain_put_number(at, message->identifier, 2);
    return plain_put_number(at, message->sequence, 2);
}

static uint8_t *put_reply_fields(uint8_t *at, const plain_message *reply)
{
    *at++ = reply->hops;
    *at++ = reply->format;
    at = plain_put_number(at, reply->timestamp, 8);
    at = plain_put_number(at, reply->mtu, 4);
    return plain_put_number(at, reply->rate, 4);
}

/* The data, and the checksum over the whole. */
static void put_end(uint8_t *output, uint8_t *at, const plain_message *message)
{
    size_t count = (size_t)(at - output) + message->data_octets;

    if (message->data_octets > 0)
        memcpy(at, message->data, message->data_octets);
    plain_put_number(output + CHECKSUM_AT,
                     plain_checksum_around(output, count, CHECKSUM_AT), 2);
}

void plain_reply_write(const plain_message *reply, uint8_t *output)
{
    uint8_t *at = put_beginning(output, PLAIN_ECHO_REPLY, reply);

    put_end(output, put_reply_fields(at, reply), reply);
}

static plain_refusal judge_size(size_t count, size_t room)
{
    if (room < count)
        return PLAIN_NO_ROOM;
    return count > PLAIN_DATA_MOST ? PLAIN_TOO_MUCH_DATA : PLAIN_GOOD;
}

plain_refusal plain_request_build(const plain_message *request,
                                  uint8_t *output, size_t room,
                                  size_t *written)
{
    size_t count = PLAIN_REQUEST_FIXED + request->data_octets;
    plain_refusal refusal = judge_size(count, room);

    if (refusal != PLAIN_GOOD)
        return refusal;
    put_end(output, put_beginning(output, PLAIN_ECHO_REQUEST, request),
            request);
    *written = count;
    return PLAIN_GOOD;
}

plain_refusal plain_reply_build(const plain_message *reply, uint8_t *output,
                                size_t room, size_t *written)
{
    size_t count = PLAIN_REPLY_FIXED + reply->data_octets;
    plain_refusal refusal = judge_size(count, room);

    if (refusal != PLAIN_GOOD)
        return refusal;
    plain_reply_write(reply, output);
    *written = count;
    return PLAIN_GOOD;
}
