/*
 * words_echo.c: the words read_echo, build_echo and echo.
 *
 * ` !` stands at the end of an answer where the call changed what it should
 * not, an octet behind the message or the reply among it, or where the parts of
 * an answer do not go together, as in words_relay.c. The awkward case is a
 * number that the answer has no place for, such as the hop count of a request:
 * the library promises 0 there, and ` !` says where it is not.
 */
#include "words.h"

#include <string.h>

#include "harpjuniper.h"
#include "lent.h"
#include "lent_relay.h"

static bool take_16(struct trace_word word, uint16_t *number)
{
    uint64_t wide;

    if (!trace_number(word, UINT16_MAX, &wide))
        return false;
    *number = (uint16_t)wide;
    return true;
}

/* ---- read_echo and build_echo -------------------------------------------- */

/* What a reply has and a request has not. */
static void add_reply(struct text *answer, const hj_message *message)
{
    text_next_number(answer, message->hop_count);
    text_next_number(answer, message->format);
    text_string(answer, " ");
    text_digits(answer, message->stamp, 16);
    text_next_number(answer, message->mtu);
    text_next_number(answer, message->rate);
}

/* Whether what the answer does not show is 0. */
static bool shows_all(const hj_message *message)
{
    uint64_t hidden = message->reserved;

    if (message->refusal != HJ_DONE)
        hidden |= message->type | message->identifier | message->sequence |
                  message->data_from;
    if (message->refusal != HJ_DONE || message->type != HJ_ECHO_REPLY)
        hidden |= message->hop_count | message->format | message->stamp |
                  message->mtu | message->rate;
    return hidden == 0;
}

/* Where the data of a message of this type begin. */
static uint32_t fixed_octets(uint32_t type)
{
    return type == HJ_ECHO_REPLY ? HJ_REPLY_OCTETS : HJ_REQUEST_OCTETS;
}

static void add_message(struct text *answer, const hj_message *message,
                        const uint8_t *octets, size_t count)
{
    uint32_t from = fixed_octets(message->type);

    text_next_number(answer, message->type);
    text_next_number(answer, message->identifier);
    text_next_number(answer, message->sequence);
    text_string(answer, " ");
    text_octets(answer, octets + from, count - from);
    if (message->type == HJ_ECHO_REPLY)
        add_reply(answer, message);
    if (message->data_from != from)
        text_string(answer, " !");
}

bool answer_read_echo(const struct trace_word *arguments, struct text *answer)
{
    static uint8_t octets[TRACE_MOST_OCTETS];
    hj_message message;
    size_t count;

    if (!trace_octets(arguments[0], octets, &count))
        return false;
    text_number(answer, hj_read_echo(octets, count, &message));
    if (message.refusal == HJ_DONE && count < fixed_octets(message.type))
        text_string(answer, " !");
    else if (message.refusal == HJ_DONE)
        add_message(answer, &message, octets, count);
    if (!shows_all(&message))
        text_string(answer, " !");
    return true;
}

bool answer_build_echo(const struct trace_word *arguments, struct text *answer)
{
    static uint8_t data[TRACE_MOST_OCTETS];
    uint16_t identifier, sequence;
    uint64_t room;
    size_t count;
    hj_answer built;

    if (!trace_number(arguments[0], LENT_MOST_ROOM, &room) ||
        !take_16(arguments[1], &identifier) ||
        !take_16(arguments[2], &sequence) ||
        !trace_octets(arguments[3], data, &count))
        return false;
    built = hj_build_request(identifier, sequence, data, count,
                             lent_output(room), room);
    text_number(answer, hj_refusal(built));
    text_string(answer, " ");
    lent_answer(answer, room, hj_value(built));
    return true;
}

/* ---- echo ---------------------------------------------------------------- */

struct request {
    uint32_t port;
    uint16_t slot;
    uint32_t mission;
    size_t room;
    size_t count;
    uint8_t octets[TRACE_MOST_OCTETS];
};

static bool take_request(const struct trace_word *words,
                         struct request *request)
{
    uint64_t room;

    if (!trace_number_32(words[0], &request->port) ||
        !take_16(words[1], &request->slot) ||
        !trace_number(words[2], LENT_MOST_ROOM, &room))
        return false;
    request->room = room;
    return trace_octets(words[3], request->octets, &request->count) &&
           trace_mission(words[4], &request->mission);
}

/* A set of one port. */
static bool is_one_port(uint32_t ports)
{
    return ports != 0 && (ports & (ports - 1)) == 0;
}

/* Whether the parts of the answer go together, and the reply's length field
 * says what they do. */
static bool parts_agree(hj_verdict verdict, const uint8_t *output)
{
    uint32_t onward = hj_onward(verdict);
    uint32_t octets = hj_reply_octets(verdict);
    bool sent = onward == HJ_SENT_ON;
    bool dropped = onward == HJ_QUEUES_FULL;

    if (hj_ended_by(verdict) != HJ_DONE)
        return verdict >> 8 == 0;
    if (hj_local(verdict) != 0 || verdict >> 56 != 0 || sent != (octets != 0))
        return false;
    if (sent && ((uint32_t)(output[0] & 31) << 8 | output[1]) != octets)
        return false;
    return (sent ? is_one_port(hj_took(verdict)) : hj_took(verdict) == 0) &&
           (dropped ? is_one_port(hj_dropped(verdict))
                    : hj_dropped(verdict) == 0);
}

/* What the call may change: the mission's state, where a reply was made. */
static enum call_lent changed(hj_verdict verdict)
{
    return hj_ended_by(verdict) == HJ_DONE && hj_onward(verdict) != HJ_NO_REPLY
               ? LENT_M
               : LENT_NONE;
}

static void add_verdict(struct text *answer, hj_verdict verdict, size_t room)
{
    text_number(answer, hj_ended_by(verdict));
    text_next_number(answer, hj_onward(verdict));
    text_next_number(answer, hj_took(verdict));
    text_string(answer, " ");
    lent_answer(answer, room, hj_reply_octets(verdict));
}

bool answer_echo(const struct trace_word *arguments, struct text *answer)
{
    static struct request request;
    static uint8_t octets[TRACE_MOST_OCTETS];
    const struct library_lent *lent;
    hj_verdict verdict;
    uint8_t *output;

    if (!take_request(arguments, &request))
        return false;
    memcpy(octets, request.octets, request.count);
    output = lent_output(request.room);
    lent = lent_relay(request.mission);
    verdict = hj_echo(lent->board, lent->board_words, lent->mission,
                      lent->mission_words, lent->routes, lent->route_count,
                      request.port, request.slot, octets, request.count,
                      output, request.room);
    add_verdict(answer, verdict, request.room);
    lent_relay_answer(answer, changed(verdict));
    if (!parts_agree(verdict, output) ||
        memcmp(octets, request.octets, request.count) != 0)
        text_string(answer, " !");
    return true;
}
