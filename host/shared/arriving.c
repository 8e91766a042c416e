/*
 * arriving.c: reading the elements of a good header (003, 3.2.2 and 3.2.3) in
 * their order: destination, source, basic QOS, hop count, timestamp, expanded
 * QOS, checksum.
 */
#include "arriving.h"

/* Where the next element stands. An octet that is not there counts as 0. */
struct place {
    const uint8_t *octets;
    size_t count;
    size_t at;
};

static uint64_t take_wide(struct place *place, unsigned count)
{
    uint64_t number = 0;

    for (; count > 0; count--, place->at++)
        number = number << 8 |
                 (place->at < place->count ? place->octets[place->at] : 0);
    return number;
}

/* The last four octets, of as many as are taken. */
static uint32_t take(struct place *place, unsigned count)
{
    return (uint32_t)take_wide(place, count);
}

static void take_stamp(struct arriving *arriving, struct place *place)
{
    static const unsigned OCTETS[] = {0, 3, 0, 4};
    unsigned octets = OCTETS[arriving->stamp_format];

    if (arriving->stamp_format == 2) {
        arriving->p_field = take(place, 1);
        octets = 1 + arriving->p_field / 4 % 4 + arriving->p_field % 4;
    }
    arriving->time = take_wide(place, octets);
}

static void take_elements(struct arriving *arriving, struct place *place)
{
    unsigned octets = arriving->extended ? 4 : 1;
    uint32_t qos;

    if (arriving->ipv6)
        octets = 16;
    arriving->destination = take(place, octets);
    if (arriving->has_source)
        arriving->source = take(place, octets);
    if (arriving->has_qos) {
        qos = take(place, 1);
        arriving->precedence = qos >> 4;
        arriving->routing = qos >> 2 & 3;
    }
    if (arriving->has_hop_count)
        arriving->hop_count = take(place, 1);
    take_stamp(arriving, place);
    arriving->header = (uint32_t)place->at + arriving->has_expanded +
                       2 * arriving->has_checksum;
}

static unsigned shortest(const struct arriving *arriving)
{
    if (arriving->ipv6 || arriving->has_expanded || arriving->intermediate)
        return 3;
    return arriving->extended || arriving->has_source || arriving->has_qos ||
                   arriving->has_hop_count || arriving->stamp_format != 0
               ? 2
               : 1;
}

struct arriving arriving_read(const uint8_t *octets, size_t count)
{
    struct place place = {octets, count, 0};
    struct arriving arriving = {0};
    uint32_t control[3] = {0, 0, 0};

    arriving.length = take(&place, 2) & 0x1fff;
    control[0] = take(&place, 1);
    if (control[0] & 0x08)
        control[1] = take(&place, 1);
    if (control[1] & 0x80)
        control[2] = take(&place, 1);
    arriving.control = (unsigned)place.at - 2;
    arriving.tp_id = control[0] >> 4;
    arriving.has_checksum = (control[0] & 0x01) != 0;
    arriving.has_source = (control[1] & 0x40) != 0;
    arriving.has_hop_count = (control[1] & 0x20) != 0;
    arriving.stamp_format = control[1] >> 3 & 3;
    arriving.has_qos = (control[1] & 0x02) != 0;
    arriving.extended = (control[1] & 0x01) != 0;
    arriving.ipv6 = (control[2] & 0x40) != 0;
    arriving.has_expanded = (control[2] & 0x20) != 0;
    arriving.intermediate = (control[2] & 0x10) != 0;
    arriving.shortest = shortest(&arriving);
    take_elements(&arriving, &place);
    return arriving;
}
