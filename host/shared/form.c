/*
 * form.c: choosing and writing a header (003, 3.2.2 and 3.2.3).
 *
 * Order on the wire: version and length, TP-ID and control field, destination,
 * source, basic QOS, hop count, timestamp, expanded QOS, checksum. The awkward
 * case is the checksum of a header of odd length: it straddles two words, so it
 * is summed over the octets before it, which is the same as with zeros there.
 */
#include "form.h"

#include <string.h>

static const struct {
    unsigned octets;
    bool has_source;
} ADDRESS_TYPES[] = {{4, true}, {4, false}, {1, true}, {1, false}, {16, true}};

unsigned form_shortest_control(const struct form *form)
{
    if (form->address_octets == 16 || form->has_expanded || form->intermediate)
        return 3;
    if (form->has_source || form->address_octets == 4 || form->has_qos ||
        form->has_hop_count || form->stamp_format != 0)
        return 2;
    return 1;
}

void form_choose(struct form *form, struct random *random)
{
    unsigned type = random_below(random, 5);
    bool full = random_one_in(random, 16); /* every element, the longest */

    form->tp_id = random_below(random, 16);
    form->address_octets = ADDRESS_TYPES[type].octets;
    form->has_source = ADDRESS_TYPES[type].has_source;
    form->has_qos = full || random_one_in(random, 2);
    form->has_hop_count = full || random_one_in(random, 2);
    form->stamp_format = full ? 2 : random_below(random, 4);
    form->has_expanded = full || random_one_in(random, 4);
    form->has_checksum = full || random_one_in(random, 2);
    form->intermediate = random_one_in(random, 4);
    random_octets(random, form->destination, 16);
    random_octets(random, form->source, 16);
    form->precedence = random_below(random, 16);
    form->routing = random_below(random, 4);
    form->program = random_below(random, 4);
    form->hop_count = (uint8_t)random_below(random, 256);
    form->p_field = (uint8_t)(random_below(random, 256) | (full ? 15 : 0));
    random_octets(random, form->time, 7);
    form->expanded = (uint8_t)random_below(random, 256);
    form->control_octets = form_shortest_control(form);
}

void form_put_address(const struct form *form, uint8_t *octets,
                      uint32_t address)
{
    unsigned count = form->address_octets;

    for (unsigned i = 0; i < count && count < 16; i++)
        octets[i] = (uint8_t)(address >> 8 * (count - 1 - i));
}

unsigned form_time_octets(const struct form *form)
{
    switch (form->stamp_format) {
    case 1:
        return 3;
    case 2:
        return 1u + form->p_field / 4u % 4u + form->p_field % 4u;
    case 3:
        return 4;
    default:
        return 0;
    }
}

static unsigned flag(bool is_set, unsigned bit)
{
    return is_set ? 1u << bit : 0;
}

static uint8_t *write_control(const struct form *form, uint8_t *at)
{
    *at++ = (uint8_t)(form->tp_id << 4 | flag(form->control_octets > 1, 3) |
                      flag(true, 1) | flag(form->has_checksum, 0));
    if (form->control_octets > 1)
        *at++ = (uint8_t)(flag(form->control_octets > 2, 7) |
                          flag(form->has_source, 6) |
                          flag(form->has_hop_count, 5) |
                          form->stamp_format << 3 | flag(form->has_qos, 1) |
                          flag(form->address_octets == 4, 0));
    if (form->control_octets > 2)
        *at++ = (uint8_t)(flag(form->address_octets == 16, 6) |
                          flag(form->has_expanded, 5) |
                          flag(form->intermediate, 4));
    return at;
}

static uint8_t *write_octets(uint8_t *at, const uint8_t *octets, size_t count)
{
    memcpy(at, octets, count);
    return at + count;
}

static uint8_t *write_elements(const struct form *form, uint8_t *at)
{
    at = write_octets(at, form->destination, form->address_octets);
    if (form->has_source)
        at = write_octets(at, form->source, form->address_octets);
    if (form->has_qos)
        *at++ = (uint8_t)(form->precedence << 4 | form->routing << 2 |
                          form->program);
    if (form->has_hop_count)
        *at++ = form->hop_count;
    if (form->stamp_format == 2)
        *at++ = form->p_field;
    at = write_octets(at, form->time, form_time_octets(form));
    if (form->has_expanded)
        *at++ = form->expanded;
    return at;
}

size_t form_write(const struct form *form, size_t data, uint8_t *octets)
{
    uint8_t *end = write_elements(form, write_control(form, octets + 2));
    size_t body = (size_t)(end - octets);
    size_t header = body + (form->has_checksum ? 2 : 0);
    size_t length = header + data;

    octets[0] = (uint8_t)(1 << 5 | length >> 8);
    octets[1] = (uint8_t)length;
    if (form->has_checksum) {
        uint16_t checksum = form_checksum(octets, body);

        octets[body] = (uint8_t)(checksum >> 8);
        octets[body + 1] = (uint8_t)checksum;
    }
    return header;
}

uint16_t form_checksum(const uint8_t *octets, size_t count)
{
    uint32_t sum = 0;

    for (size_t i = 0; i < count; i++) {
        sum += i % 2 == 0 ? (uint32_t)octets[i] << 8 : octets[i];
        sum = (sum & 0xffff) + (sum >> 16);
    }
    return (uint16_t)~sum;
}
