/*
 * The words class, path, checksum, read and build, and read_echo and build_echo
 * for the messages of an echo.
 *
 * The awkward case is build: a number out of range must reach the library,
 * which refuses it by 19, while a line whose words do not go together (some of
 * the basic QOS absent and some not, a timestamp of another length than its
 * format gives) is not understood and calls nothing.
 */
#include <string.h>

#include "plain_address.h"
#include "plain_checksum.h"
#include "plain_header.h"
#include "plain_message.h"
#include "plain_words.h"

enum { UNTOUCHED = 0xa5 };

void plain_output_lend(plain_session *session, uint32_t room)
{
    memset(session->output, UNTOUCHED, plain_output_end(room));
}

void plain_output_stretch(plain_session *session, uint32_t from,
                          uint32_t count)
{
    uint8_t *stretch = session->output + from;
    uint32_t end = count;

    while (end > 0 && stretch[end - 1] == UNTOUCHED)
        end--;
    plain_text_octets(&session->text, stretch, end);
    memset(stretch, UNTOUCHED, end);
}

void plain_output_rest(plain_session *session, uint32_t from, uint32_t end)
{
    uint32_t at = from;

    while (at < end && session->output[at] == UNTOUCHED)
        at++;
    if (at < end)
        plain_text_string(&session->text, " !");
}

void plain_output_answer(plain_session *session, uint32_t room,
                         uint32_t written)
{
    if (written > 0)
        plain_text_octets(&session->text, session->output, written);
    else
        plain_text_string(&session->text, "-");
    memset(session->output, UNTOUCHED, written);
    plain_output_rest(session, 0, plain_output_end(room));
}

static bool answer_class(plain_session *session, const plain_word *arguments)
{
    plain_address address;

    if (!plain_word_bits(arguments[0], &address.bits))
        return false;
    plain_text_string(&session->text, " = ");
    plain_text_decimal(&session->text, plain_address_class(address));
    return true;
}

static bool answer_path(plain_session *session, const plain_word *arguments)
{
    plain_path path;

    if (!plain_word_bits(arguments[0], &path.bits))
        return false;
    plain_text_string(&session->text, " = ");
    plain_text_decimal(&session->text, plain_path_valid(path));
    return true;
}

static bool answer_checksum(plain_session *session,
                            const plain_word *arguments)
{
    plain_octets *octets = &session->octets;

    if (!plain_word_octets(arguments[0], octets))
        return false;
    plain_text_string(&session->text, " = ");
    plain_text_digits(&session->text,
                      plain_checksum(octets->start, octets->count), 4);
    return true;
}

static void put_address(plain_text *text, plain_wide address, uint32_t octets)
{
    plain_text_string(text, " ");
    if (octets == 16) {
        plain_text_digits(text, address.high, 16);
        plain_text_digits(text, address.low, 16);
    } else {
        plain_text_digits(text, address.low, 2 * octets);
    }
}

static void put_number(plain_text *text, uint32_t number)
{
    plain_text_string(text, " ");
    plain_text_decimal(text, number);
}

static void put_element(plain_text *text, uint32_t present, uint32_t number)
{
    if (present)
        put_number(text, number);
    else
        plain_text_string(text, " -");
}

void plain_stamp_answer(plain_text *text, uint32_t format, uint32_t p_field,
                        uint64_t time)
{
    uint32_t octets = plain_stamp_octets(format, p_field);

    if (format == PLAIN_STAMP_EXPLICIT) {
        plain_text_digits(text, p_field, 2);
        octets--;
    }
    plain_text_digits(text, time, 2 * octets);
}

static void put_stamp(plain_text *text, const plain_fields *fields)
{
    bool present = fields->stamp_format != PLAIN_STAMP_NONE;

    plain_text_string(text, present ? " " : " -");
    plain_stamp_answer(text, fields->stamp_format, fields->p_field,
                       fields->time);
}

static void put_header(plain_text *text, const plain_header *header)
{
    const plain_fields *fields = &header->fields;
    uint32_t octets = plain_address_octets(fields);

    put_number(text, header->length);
    put_number(text, header->header_length);
    put_number(text, fields->tp_id);
    put_address(text, fields->destination, octets);
    if (fields->source_present)
        put_address(text, fields->source, octets);
    else
        plain_text_string(text, " -");
    put_number(text, fields->extended);
    put_number(text, fields->ipv6);
    put_element(text, fields->basic_qos_present, fields->precedence);
    put_element(text, fields->basic_qos_present, fields->routing);
    put_element(text, fields->basic_qos_present, fields->program);
    put_element(text, fields->hop_present, fields->hop);
    put_number(text, fields->stamp_format);
    put_stamp(text, fields);
    put_element(text, fields->expanded_present, fields->expanded);
    put_number(text, fields->checksum_present);
    put_number(text, fields->intermediate);
}

static bool answer_read(plain_session *session, const plain_word *arguments)
{
    plain_octets *octets = &session->octets;
    plain_header header;
    plain_refusal refusal;

    if (!plain_word_octets(arguments[0], octets))
        return false;
    refusal = plain_header_read(octets->start, octets->count, &header);
    plain_text_string(&session->text, " =");
    put_number(&session->text, refusal);
    if (refusal == PLAIN_GOOD)
        put_header(&session->text, &header);
    return true;
}

/* An element that may be absent, "-". */
static bool take_element(plain_word word, uint32_t *present, uint32_t *number)
{
    *present = !plain_word_is(word, "-");
    return !*present || plain_word_number(word, UINT32_MAX, number);
}

static bool take_basic_qos(const plain_word *words, plain_fields *fields)
{
    uint32_t routing_present, program_present;

    return take_element(words[0], &fields->basic_qos_present,
                        &fields->precedence) &&
           take_element(words[1], &routing_present, &fields->routing) &&
           take_element(words[2], &program_present, &fields->program) &&
           routing_present == fields->basic_qos_present &&
           program_present == fields->basic_qos_present;
}

static bool take_stamp(plain_session *session, plain_word word,
                       plain_fields *fields)
{
    plain_octets *octets = &session->octets;
    size_t at = 0;

    if (!plain_word_octets(word, octets))
        return false;
    if (fields->stamp_format == PLAIN_STAMP_EXPLICIT) {
        if (octets->count == 0)
            return false;
        fields->p_field = octets->start[at++];
    }
    if (octets->count !=
        plain_stamp_octets(fields->stamp_format, fields->p_field))
        return false;
    for (; at < octets->count; at++)
        fields->time = fields->time << 8 | octets->start[at];
    return true;
}

static bool take_addresses(const plain_word *words, plain_fields *fields)
{
    fields->source_present = !plain_word_is(words[1], "-");
    return plain_word_wide(words[0], &fields->destination) &&
           (!fields->source_present ||
            plain_word_wide(words[1], &fields->source)) &&
           plain_word_number(words[2], UINT32_MAX, &fields->extended) &&
           plain_word_number(words[3], UINT32_MAX, &fields->ipv6);
}

static bool take_fields(plain_session *session, const plain_word *words,
                        plain_fields *fields)
{
    memset(fields, 0, sizeof *fields);
    return plain_word_number(words[0], UINT32_MAX, &fields->tp_id) &&
           take_addresses(words + 1, fields) &&
           take_basic_qos(words + 5, fields) &&
           take_element(words[8], &fields->hop_present, &fields->hop) &&
           plain_word_number(words[9], UINT32_MAX, &fields->stamp_format) &&
           take_stamp(session, words[10], fields) &&
           take_element(words[11], &fields->expanded_present,
                        &fields->expanded) &&
           plain_word_number(words[12], UINT32_MAX,
                             &fields->checksum_present) &&
           plain_word_number(words[13], UINT32_MAX, &fields->intermediate);
}

static bool answer_build(plain_session *session, const plain_word *arguments)
{
    uint32_t data, room;
    uint32_t written = 0;
    plain_fields fields;
    plain_refusal refusal;

    if (!plain_word_number(arguments[0], UINT32_MAX, &data) ||
        !plain_word_number(arguments[1], PLAIN_ROOM_MOST, &room) ||
        !take_fields(session, arguments + 2, &fields))
        return false;
    plain_output_lend(session, room);
    refusal = plain_header_build(&fields, data, session->output, room,
                                 &written);
    plain_text_string(&session->text, " =");
    put_number(&session->text, refusal);
    plain_text_string(&session->text, " ");
    plain_output_answer(session, room, written);
    return true;
}

/* Octets, or "-" for none. */
static void put_octets(plain_text *text, const uint8_t *octets, size_t count)
{
    plain_text_string(text, count > 0 ? " " : " -");
    plain_text_octets(text, octets, count);
}

static void put_message(plain_text *text, const plain_message *message)
{
    put_number(text, message->type);
    put_number(text, message->identifier);
    put_number(text, message->sequence);
    put_octets(text, message->data, message->data_octets);
    if (message->type == PLAIN_ECHO_REQUEST)
        return;
    put_number(text, message->hops);
    put_number(text, message->format);
    plain_text_string(text, " ");
    plain_text_digits(text, message->timestamp, 16);
    put_number(text, message->mtu);
    put_number(text, message->rate);
}

static bool answer_read_echo(plain_session *session,
                             const plain_word *arguments)
{
    plain_octets *octets = &session->octets;
    plain_message message;
    plain_refusal refusal;

    if (!plain_word_octets(arguments[0], octets))
        return false;
    refusal = plain_message_read(octets->start, octets->count, &message);
    plain_text_string(&session->text, " =");
    put_number(&session->text, refusal);
    if (refusal == PLAIN_GOOD)
        put_message(&session->text, &message);
    return true;
}

static bool answer_build_echo(plain_session *session,
                              const plain_word *arguments)
{
    plain_octets *octets = &session->octets;
    plain_message request = {PLAIN_ECHO_REQUEST, 0, 0, 0, 0, 0, 0, 0, NULL, 0};
    uint32_t room, identifier, sequence;
    size_t written = 0;
    plain_refusal refusal;

    if (!plain_word_number(arguments[0], PLAIN_ROOM_MOST, &room) ||
        !plain_word_number(arguments[1], UINT16_MAX, &identifier) ||
        !plain_word_number(arguments[2], UINT16_MAX, &sequence) ||
        !plain_word_octets(arguments[3], octets))
        return false;
    request.identifier = (uint16_t)identifier;
    request.sequence = (uint16_t)sequence;
    request.data = octets->start;
    request.data_octets = octets->count;
    plain_output_lend(session, room);
    refusal = plain_request_build(&request, session->output, room, &written);
    plain_text_string(&session->text, " =");
    put_number(&session->text, refusal);
    plain_text_string(&session->text, " ");
    plain_output_answer(session, room, (uint32_t)written);
    return true;
}

const plain_meaning plain_header_words[] = {
    {"class", 1, answer_class},
    {"path", 1, answer_path},
    {"checksum", 1, answer_checksum},
    {"read", 1, answer_read},
    {"build", 16, answer_build},
    {"read_echo", 1, answer_read_echo},
    {"build_echo", 4, answer_build_echo},
    {NULL, 0, NULL},
};
