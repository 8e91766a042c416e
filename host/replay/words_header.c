/*
 * words_header.c: the words class, path, checksum, read and build.
 *
 * The library decides, never this file: a number out of range is handed over as
 * it stands, and only what the library's types cannot hold, or what no header
 * could mean (half a basic QOS, a timestamp of another length than its format
 * gives), makes a line that is not understood.
 *
 * The awkward case is a number that an answer has no place for, such as the
 * hop count of a header without one: the library promises 0 there, and ` !`
 * says where it is not.
 */
#include "words.h"

#include <string.h>

#include "harpjuniper.h"
#include "lent.h"
#include "stamp.h"

static bool answer_of_four_octets(const struct trace_word *arguments,
                                  struct text *answer, uint32_t of(uint32_t))
{
    uint32_t address;

    if (!trace_address(arguments[0], &address))
        return false;
    text_number(answer, of(address));
    return true;
}

bool answer_class(const struct trace_word *arguments, struct text *answer)
{
    return answer_of_four_octets(arguments, answer, hj_class);
}

bool answer_path(const struct trace_word *arguments, struct text *answer)
{
    return answer_of_four_octets(arguments, answer, hj_path);
}

static uint8_t octets[TRACE_MOST_OCTETS];

bool answer_checksum(const struct trace_word *arguments, struct text *answer)
{
    size_t count;

    if (!trace_octets(arguments[0], octets, &count))
        return false;
    text_digits(answer, hj_checksum(octets, count), 4);
    return true;
}

/* ---- read -------------------------------------------------------------- */

static unsigned address_octets(const hj_fields *fields)
{
    if (fields->ipv6)
        return 16;
    return fields->extended ? 4 : 1;
}

static void add_number(struct text *answer, uint32_t number)
{
    text_string(answer, " ");
    text_number(answer, number);
}

static void add_element(struct text *answer, uint32_t present, uint32_t number)
{
    if (present)
        add_number(answer, number);
    else
        text_string(answer, " -");
}

static void add_address(struct text *answer, unsigned count, uint64_t high,
                        uint64_t low)
{
    text_string(answer, " ");
    if (count == 16)
        text_digits(answer, high, 16);
    text_digits(answer, low, count == 16 ? 16 : 2 * count);
}

static void add_stamp(struct text *answer, const hj_fields *fields)
{
    add_number(answer, fields->stamp_format);
    text_string(answer, " ");
    stamp_add(answer, fields->stamp_format, fields->p_field, fields->time);
}

static void add_fields(struct text *answer, const hj_fields *fields)
{
    unsigned count = address_octets(fields);

    add_number(answer, fields->tp_id);
    add_address(answer, count, fields->destination_high,
                fields->destination_low);
    if (fields->has_source)
        add_address(answer, count, fields->source_high, fields->source_low);
    else
        text_string(answer, " -");
    add_number(answer, fields->extended);
    add_number(answer, fields->ipv6);
    add_element(answer, fields->has_qos, fields->precedence);
    add_element(answer, fields->has_qos, fields->routing);
    add_element(answer, fields->has_qos, fields->program);
    add_element(answer, fields->has_hop_count, fields->hop_count);
    add_stamp(answer, fields);
    add_element(answer, fields->has_expanded, fields->expanded);
    add_number(answer, fields->has_checksum);
    add_number(answer, fields->intermediate);
}

/* What lies above the octets of an element: 0 where they show it whole. */
static uint64_t beyond(uint64_t number, unsigned count)
{
    return count < 8 ? number >> 8 * count : 0;
}

/* Whether the answer shows every number of the fields. */
static bool shows_all(const hj_fields *fields)
{
    unsigned address = address_octets(fields);
    uint64_t hidden = beyond(fields->destination_low, address) |
                      beyond(fields->source_low, address) |
                      beyond(fields->time,
                             stamp_time_octets(fields->stamp_format,
                                               fields->p_field));

    if (address != 16)
        hidden |= fields->destination_high | fields->source_high;
    if (!fields->has_source)
        hidden |= fields->source_high | fields->source_low;
    if (!fields->has_qos)
        hidden |= fields->precedence | fields->routing | fields->program;
    if (!fields->has_hop_count)
        hidden |= fields->hop_count;
    if (!fields->has_expanded)
        hidden |= fields->expanded;
    if (fields->stamp_format != HJ_STAMP_EXPLICIT)
        hidden |= fields->p_field;
    return hidden == 0 && fields->p_field <= 255 &&
           (fields->has_source | fields->has_qos | fields->has_hop_count |
            fields->has_expanded) <= 1;
}

static bool all_zero(const hj_reading *reading)
{
    static const hj_fields nothing;

    return reading->length == 0 && reading->header == 0 &&
           reading->reserved == 0 &&
           memcmp(&reading->fields, &nothing, sizeof nothing) == 0;
}

bool answer_read(const struct trace_word *arguments, struct text *answer)
{
    size_t count;
    hj_reading reading;

    if (!trace_octets(arguments[0], octets, &count))
        return false;
    reading = hj_read(octets, count);
    text_number(answer, reading.refusal);
    if (reading.refusal == HJ_DONE) {
        add_number(answer, reading.length);
        add_number(answer, reading.header);
        add_fields(answer, &reading.fields);
    }
    if (!(reading.refusal == HJ_DONE ? shows_all(&reading.fields)
                                     : all_zero(&reading)))
        text_string(answer, " !");
    return true;
}

/* ---- build ------------------------------------------------------------- */

/* An element that may be absent, `-`. */
static bool take_element(struct trace_word word, uint32_t *present,
                         uint32_t *number)
{
    *present = !trace_is(word, "-");
    return !*present || trace_number_32(word, number);
}

/* Destination, source, extended, ipv6. */
static bool take_addresses(const struct trace_word *words, hj_fields *fields)
{
    fields->has_source = !trace_is(words[1], "-");
    if (fields->has_source &&
        !trace_wide(words[1], &fields->source_high, &fields->source_low))
        return false;
    return trace_wide(words[0], &fields->destination_high,
                      &fields->destination_low) &&
           trace_number_32(words[2], &fields->extended) &&
           trace_number_32(words[3], &fields->ipv6);
}

/* Precedence, routing, program: all present or none. */
static bool take_qos(const struct trace_word *words, hj_fields *fields)
{
    uint32_t has_routing, has_program;

    return take_element(words[0], &fields->has_qos, &fields->precedence) &&
           take_element(words[1], &has_routing, &fields->routing) &&
           take_element(words[2], &has_program, &fields->program) &&
           has_routing == fields->has_qos && has_program == fields->has_qos;
}

/* Format and timestamp. */
static bool take_stamp(const struct trace_word *words, hj_fields *fields)
{
    size_t count, at = 0;

    if (!trace_number_32(words[0], &fields->stamp_format) ||
        !trace_octets(words[1], octets, &count))
        return false;
    if (fields->stamp_format == HJ_STAMP_EXPLICIT && count > 0)
        fields->p_field = octets[at++];
    if (count - at !=
        stamp_time_octets(fields->stamp_format, fields->p_field))
        return false;
    for (; at < count; at++)
        fields->time = fields->time << 8 | octets[at];
    return true;
}

static bool take_fields(const struct trace_word *words, hj_fields *fields)
{
    return trace_number_32(words[0], &fields->tp_id) &&
           take_addresses(words + 1, fields) && take_qos(words + 5, fields) &&
           take_element(words[8], &fields->has_hop_count,
                        &fields->hop_count) &&
           take_stamp(words + 9, fields) &&
           take_element(words[11], &fields->has_expanded, &fields->expanded) &&
           trace_number_32(words[12], &fields->has_checksum) &&
           trace_number_32(words[13], &fields->intermediate);
}

bool answer_build(const struct trace_word *arguments, struct text *answer)
{
    uint64_t data, room;
    hj_fields fields = {0};
    hj_answer built;

    if (!trace_number(arguments[0], SIZE_MAX, &data) ||
        !trace_number(arguments[1], LENT_MOST_ROOM, &room) ||
        !take_fields(arguments + 2, &fields))
        return false;
    built = hj_build(fields, data, lent_output(room), room);
    text_number(answer, hj_refusal(built));
    text_string(answer, " ");
    lent_answer(answer, room, hj_value(built));
    return true;
}
