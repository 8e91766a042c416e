/*
 * Reading and building the SCPS-NP header.
 *
 * The header is a chain of elements without gaps; the control field says
 * which are there. Its one to three octets, with the TP-ID in the first, are
 * held as one word of the header's bits 16 to 39, absent octets as zeros, so
 * that a bit has the same place whatever the field's length. The reader first
 * finds where each element stands, which settles all questions of length, and
 * takes the values out only when nothing can be refused any more.
 *
 * The awkward cases: the explicit timestamp tells its own length by its first
 * octet, which must be there before it is looked at; and in a header of odd
 * length the checksum straddles two words. As the element counts as zero and
 * stands last, the sum over the octets before it is the sum over the whole
 * header, and no element has to be taken out of the sum.
 */
#include "plain_header.h"

#include <stdbool.h>
#include <string.h>

#include "plain_checksum.h"
#include "plain_wire.h"

/* Header bit n (16 to 39, most significant first) of the control word. */
#define BIT(n) ((uint32_t)1 << (39 - (n)))

#define CONTINUES_IN_OCTET_4 BIT(20)
#define DESTINATION BIT(22)
#define CHECKSUM BIT(23)
#define CONTINUES_IN_OCTET_5 BIT(24)
#define SOURCE BIT(25)
#define HOP_COUNT BIT(26)
#define STAMP_SHIFT 11 /* bits 27 and 28 */
#define BASIC_QOS BIT(30)
#define EXTENDED BIT(31)
#define IPV6 BIT(33)
#define EXPANDED_QOS BIT(34)
#define INTERMEDIATE BIT(35)
#define ALWAYS_ZERO \
    (BIT(21) | BIT(29) | BIT(32) | BIT(36) | BIT(37) | BIT(38) | BIT(39))

/* What only the second and only the third octet of the control field can say;
 * where none of it is said, the octet is not needed. */
#define SAID_IN_OCTET_4 0x007f00u
#define SAID_IN_OCTET_5 0x0000ffu

enum { VERSION = 1, CHECKSUM_OCTETS = 2 };

/* Where the elements of a header stand. */
typedef struct {
    uint32_t addresses_at;
    uint32_t address_octets;
    uint32_t qos_at;
    uint32_t hop_at;
    uint32_t stamp_at;
    uint32_t stamp_octets;
    uint32_t expanded_at;
    uint32_t header_length;
} layout;

static bool has(uint32_t control, uint32_t element)
{
    return (control & element) != 0;
}

/* How many octets the control field has, or 0 where the octets end inside. */
static uint32_t control_octets(const uint8_t *octets, size_t count)
{
    if ((octets[2] & 0x08) == 0)
        return 1;
    if (count < 4)
        return 0;
    if ((octets[3] & 0x80) == 0)
        return 2;
    return count < 5 ? 0 : 3;
}

static uint32_t control_word(const uint8_t *octets, uint32_t control_count)
{
    uint32_t control = (uint32_t)octets[2] << 16;

    if (control_count >= 2)
        control |= (uint32_t)octets[3] << 8;
    if (control_count >= 3)
        control |= octets[4];
    return control;
}

/* Tables 3-4, 3-6 and 3-8. */
static bool control_allowed(uint32_t control)
{
    if (has(control, ALWAYS_ZERO) || !has(control, DESTINATION))
        return false;
    return !has(control, IPV6) ||
           (control & (SOURCE | EXTENDED)) == SOURCE;
}

static uint32_t address_octets(bool ipv6, bool extended)
{
    if (ipv6)
        return 16;
    return extended ? 4 : 1;
}

uint32_t plain_address_octets(const plain_fields *fields)
{
    return address_octets(fields->ipv6 != 0, fields->extended != 0);
}

uint32_t plain_stamp_octets(uint32_t format, uint32_t p_field)
{
    switch (format) {
    case PLAIN_STAMP_IMPLICIT:
        return 3;
    case PLAIN_STAMP_EXPLICIT: {
        uint32_t coarse = (p_field >> 2 & 3) + 1;
        uint32_t fine = p_field & 3;
        return 1 + coarse + fine;
    }
    case PLAIN_STAMP_BINARY:
        return 4;
    default:
        return 0;
    }
}

static uint32_t stamp_format(uint32_t control)
{
    return control >> STAMP_SHIFT & 3;
}

/* Finds every element; false where the header does not end within length,
 * which is not over the octets lent. */
static bool lay_out(const uint8_t *octets, uint32_t length, uint32_t control,
                    uint32_t control_count, layout *where)
{
    uint32_t format = stamp_format(control);
    uint32_t p_field = 0;
    uint32_t at = 2 + control_count;

    where->addresses_at = at;
    where->address_octets =
        address_octets(has(control, IPV6), has(control, EXTENDED));
    at += where->address_octets * (has(control, SOURCE) ? 2 : 1);
    where->qos_at = at;
    at += has(control, BASIC_QOS);
    where->hop_at = at;
    at += has(control, HOP_COUNT);
    where->stamp_at = at;
    if (format == PLAIN_STAMP_EXPLICIT) {
        if (at >= length)
            return false;
        p_field = octets[at];
    }
    where->stamp_octets = plain_stamp_octets(format, p_field);
    at += where->stamp_octets;
    where->expanded_at = at;
    at += has(control, EXPANDED_QOS);
    at += has(control, CHECKSUM) ? CHECKSUM_OCTETS : 0;
    where->header_length = at;
    return at <= length;
}

static plain_wide address_at(const uint8_t *octets, uint32_t count)
{
    plain_wide address = {0, 0};

    if (count == 16) {
        address.high = plain_number_at(octets, 8);
        address.low = plain_number_at(octets + 8, 8);
    } else {
        address.low = plain_number_at(octets, count);
    }
    return address;
}

static void take_addresses(const uint8_t *octets, const layout *where,
                           plain_fields *fields)
{
    const uint8_t *first = octets + where->addresses_at;

    fields->destination = address_at(first, where->address_octets);
    if (fields->source_present)
        fields->source =
            address_at(first + where->address_octets, where->address_octets);
}

static void take_stamp(const uint8_t *octets, const layout *where,
                       plain_fields *fields)
{
    uint32_t at = where->stamp_at;
    uint32_t count = where->stamp_octets;

    if (fields->stamp_format == PLAIN_STAMP_EXPLICIT) {
        fields->p_field = octets[at];
        at++;
        count--;
    }
    fields->time = plain_number_at(octets + at, count);
}

static void take_fields(const uint8_t *octets, uint32_t control,
                        const layout *where, plain_fields *fields)
{
    memset(fields, 0, sizeof *fields);
    fields->tp_id = control >> 20;
    fields->source_present = has(control, SOURCE);
    fields->extended = has(control, EXTENDED);
    fields->ipv6 = has(control, IPV6);
    fields->basic_qos_present = has(control, BASIC_QOS);
    fields->hop_present = has(control, HOP_COUNT);
    fields->stamp_format = stamp_format(control);
    fields->expanded_present = has(control, EXPANDED_QOS);
    fields->checksum_present = has(control, CHECKSUM);
    fields->intermediate = has(control, INTERMEDIATE);

    take_addresses(octets, where, fields);
    if (fields->basic_qos_present) {
        fields->precedence = octets[where->qos_at] >> 4;
        fields->routing = octets[where->qos_at] >> 2 & 3;
        fields->program = octets[where->qos_at] & 3;
    }
    if (fields->hop_present)
        fields->hop = octets[where->hop_at];
    take_stamp(octets, where, fields);
    if (fields->expanded_present)
        fields->expanded = octets[where->expanded_at];
}

/* The checksum that is due in a header of this length. */
static uint32_t checksum_due(const uint8_t *header, uint32_t header_length)
{
    return plain_checksum(header, header_length - CHECKSUM_OCTETS);
}

static bool checksum_good(const uint8_t *octets, uint32_t header_length)
{
    const uint8_t *element = octets + header_length - CHECKSUM_OCTETS;

    return plain_number_at(element, CHECKSUM_OCTETS) ==
           checksum_due(octets, header_length);
}

plain_refusal plain_header_read(const uint8_t *octets, size_t count,
                                plain_header *header)
{
    uint32_t control_count, control, length;
    layout where;

    if (count < 3)
        return PLAIN_SHORT;
    if (octets[0] >> 5 != VERSION)
        return PLAIN_BAD_VERSION;
    control_count = control_octets(octets, count);
    if (control_count == 0)
        return PLAIN_SHORT;
    control = control_word(octets, control_count);
    if (!control_allowed(control))
        return PLAIN_BAD_FORM;
    length = (uint32_t)(octets[0] & 0x1f) << 8 | octets[1];
    if (length > count ||
        !lay_out(octets, length, control, control_count, &where))
        return PLAIN_BAD_LENGTH;
    if (has(control, CHECKSUM) && !checksum_good(octets, where.header_length))
        return PLAIN_BAD_CHECKSUM;

    take_fields(octets, control, &where, &header->fields);
    header->length = length;
    header->header_length = where.header_length;
    header->hop_at = where.hop_at;
    return PLAIN_GOOD;
}

/* An absent element holds 0 and a present one at most what it has room for;
 * being present is itself a yes or a no. */
static bool element_fits(uint32_t present, uint64_t value, uint64_t most)
{
    return present <= 1 && value <= (present ? most : 0);
}

static bool address_fits(const plain_fields *fields, uint32_t present,
                         plain_wide address)
{
    uint64_t most = fields->extended ? 0xffffffff : 0xff;

    if (present && fields->ipv6)
        return true;
    return address.high == 0 && element_fits(present, address.low, most);
}

static bool stamp_fits(const plain_fields *fields)
{
    bool explicit_p = fields->stamp_format == PLAIN_STAMP_EXPLICIT;
    uint32_t time_octets;

    if (fields->stamp_format > PLAIN_STAMP_BINARY ||
        !element_fits(explicit_p, fields->p_field, 0xff))
        return false;
    time_octets = plain_stamp_octets(fields->stamp_format, fields->p_field) -
                  (explicit_p ? 1 : 0);
    /* At most seven octets, so the shift stays within the number. */
    return fields->time >> (8 * time_octets) == 0;
}

static bool fields_fit(const plain_fields *fields)
{
    uint32_t qos = fields->basic_qos_present;

    return fields->tp_id <= 15 &&
           fields->source_present <= 1 &&
           fields->extended <= 1 &&
           fields->ipv6 <= 1 &&
           address_fits(fields, 1, fields->destination) &&
           address_fits(fields, fields->source_present, fields->source) &&
           element_fits(qos, fields->precedence, 15) &&
           element_fits(qos, fields->routing, 3) &&
           element_fits(qos, fields->program, 3) &&
           element_fits(fields->hop_present, fields->hop, 255) &&
           stamp_fits(fields) &&
           element_fits(fields->expanded_present, fields->expanded, 255) &&
           fields->checksum_present <= 1 &&
           fields->intermediate <= 1;
}

/* The shortest control field that says all of the fields, which fit. */
static uint32_t shortest_control(const plain_fields *fields)
{
    uint32_t control = fields->tp_id << 20 | DESTINATION;

    control |= fields->checksum_present ? CHECKSUM : 0;
    control |= fields->source_present ? SOURCE : 0;
    control |= fields->hop_present ? HOP_COUNT : 0;
    control |= fields->stamp_format << STAMP_SHIFT;
    control |= fields->basic_qos_present ? BASIC_QOS : 0;
    control |= fields->extended ? EXTENDED : 0;
    control |= fields->ipv6 ? IPV6 : 0;
    control |= fields->expanded_present ? EXPANDED_QOS : 0;
    control |= fields->intermediate ? INTERMEDIATE : 0;

    if ((control & SAID_IN_OCTET_5) != 0)
        control |= CONTINUES_IN_OCTET_4 | CONTINUES_IN_OCTET_5;
    else if ((control & SAID_IN_OCTET_4) != 0)
        control |= CONTINUES_IN_OCTET_4;
    return control;
}

/* Each put_ function writes at the place given and answers the next one. */
static uint8_t *put_control(uint8_t *at, uint32_t control)
{
    *at++ = (uint8_t)(control >> 16 & 0xff);
    if (has(control, CONTINUES_IN_OCTET_4))
        *at++ = (uint8_t)(control >> 8 & 0xff);
    if (has(control, CONTINUES_IN_OCTET_5))
        *at++ = (uint8_t)(control & 0xff);
    return at;
}

static uint8_t *put_address(uint8_t *at, plain_wide address, uint32_t count)
{
    if (count == 16) {
        at = plain_put_number(at, address.high, 8);
        return plain_put_number(at, address.low, 8);
    }
    return plain_put_number(at, address.low, count);
}

static uint8_t *put_stamp(uint8_t *at, const plain_fields *fields)
{
    uint32_t count = plain_stamp_octets(fields->stamp_format, fields->p_field);

    if (fields->stamp_format == PLAIN_STAMP_EXPLICIT) {
        at = plain_put_number(at, fields->p_field, 1);
        count--;
    }
    return plain_put_number(at, fields->time, count);
}

/* All elements from the control field to the one before the checksum. */
static void put_elements(uint8_t *at, uint32_t control,
                         const plain_fields *fields)
{
    uint32_t count = plain_address_octets(fields);

    at = put_control(at, control);
    at = put_address(at, fields->destination, count);
    if (fields->source_present)
        at = put_address(at, fields->source, count);
    if (fields->basic_qos_present)
        at = plain_put_number(at, fields->precedence << 4 |
                                      fields->routing << 2 | fields->program,
                              1);
    if (fields->hop_present)
        at = plain_put_number(at, fields->hop, 1);
    at = put_stamp(at, fields);
    if (fields->expanded_present)
        plain_put_number(at, fields->expanded, 1);
}

static void put_checksum(uint8_t *header, uint32_t header_length)
{
    plain_put_number(header + header_length - CHECKSUM_OCTETS,
                     checksum_due(header, header_length), CHECKSUM_OCTETS);
}

uint32_t plain_header_measure(const plain_fields *fields)
{
    uint32_t control = shortest_control(fields);
    uint32_t addresses = fields->source_present ? 2 : 1;

    return 3 + has(control, CONTINUES_IN_OCTET_4) +
           has(control, CONTINUES_IN_OCTET_5) +
           addresses * plain_address_octets(fields) +
           fields->basic_qos_present + fields->hop_present +
           plain_stamp_octets(fields->stamp_format, fields->p_field) +
           fields->expanded_present +
           (fields->checksum_present ? CHECKSUM_OCTETS : 0);
}

void plain_header_write(const plain_fields *fields, uint32_t header_length,
                        uint32_t data, uint8_t *output)
{
    plain_put_number(output, (uint32_t)VERSION << 13 | (header_length + data),
                     2);
    put_elements(output + 2, shortest_control(fields), fields);
    if (fields->checksum_present)
        put_checksum(output, header_length);
}

plain_refusal plain_header_build(const plain_fields *fields, uint32_t data,
                                 uint8_t *output, size_t room,
                                 uint32_t *header_length)
{
    if (room < PLAIN_HEADER_MOST)
        return PLAIN_NO_ROOM;
    if (!fields_fit(fields) || !control_allowed(shortest_control(fields)))
        return PLAIN_FIELD_OUT_OF_RANGE;
    if (data > PLAIN_DATA_MOST)
        return PLAIN_TOO_MUCH_DATA;
    *header_length = plain_header_measure(fields);
    plain_header_write(fields, *header_length, data, output);
    return PLAIN_GOOD;
}

void plain_header_send_on(const plain_header *header, const uint8_t *octets,
                          uint8_t *output)
{
    memcpy(output, octets, header->header_length);
    if (header->fields.hop_present && output[header->hop_at] > 0)
        output[header->hop_at]--;
    if (header->fields.checksum_present)
        put_checksum(output, header->header_length);
}
