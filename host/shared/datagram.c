/*
 * datagram.c: a datagram written, and what may be done to it.
 *
 * The awkward case is a spoiling that would be found out by the checksum before
 * what it is meant to try: a changed length gets a right checksum again.
 */
#include "datagram.h"

void datagram_write(struct datagram *datagram, size_t data,
                    struct random *random)
{
    datagram->header = form_write(&datagram->form, data, datagram->octets);
    datagram->count = datagram->header + data;
    random_octets(random, datagram->octets + datagram->header,
                  (uint32_t)data);
}

void datagram_carry_checksum(struct datagram *datagram, uint16_t checksum)
{
    datagram->octets[datagram->header - 2] = (uint8_t)(checksum >> 8);
    datagram->octets[datagram->header - 1] = (uint8_t)checksum;
}

void keep(struct datagram *datagram, struct random *random)
{
    (void)datagram;
    (void)random;
}

void flip_bits(struct datagram *datagram, struct random *random)
{
    for (uint32_t flips = 1 + random_below(random, 3); flips > 0; flips--) {
        uint32_t bit = random_below(random, 8 * (uint32_t)datagram->header);

        datagram->octets[bit / 8] ^= (uint8_t)(128 >> bit % 8);
    }
}

void replace_octets(struct datagram *datagram, struct random *random)
{
    for (uint32_t times = 1 + random_below(random, 2); times > 0; times--)
        random_octets(random,
                      datagram->octets +
                          random_below(random, (uint32_t)datagram->header),
                      1);
}

/* At every place of the header, and often within its first octets. */
void truncate_lent(struct datagram *datagram, struct random *random)
{
    uint32_t most = random_one_in(random, 3) ? 8 : (uint32_t)datagram->header;

    datagram->count = random_below(random, most + 1);
}

void add_after(struct datagram *datagram, struct random *random)
{
    uint32_t more = 1 + random_below(random, DATAGRAM_MOST_LENT -
                                                 DATAGRAM_MOST_LENGTH);

    if (datagram->count + more > DATAGRAM_MOST_LENT)
        return;
    random_octets(random, datagram->octets + datagram->count, more);
    datagram->count += more;
}

/* Another length, around the header's own, around the octets lent or very
 * small, with the checksum made right so that the length alone decides. */
void change_length(struct datagram *datagram, struct random *random)
{
    size_t around[] = {datagram->header, datagram->count, 4};
    size_t length = PICK(around);

    length += random_below(random, 5); /* up to two below or above it */
    length = length < 2 ? 0 : (length - 2) % (DATAGRAM_MOST_LENGTH + 1);
    datagram->octets[0] = (uint8_t)(1 << 5 | length >> 8);
    datagram->octets[1] = (uint8_t)length;
    if (datagram->form.has_checksum)
        datagram_carry_checksum(
            datagram, form_checksum(datagram->octets, datagram->header - 2));
}

/* One of the control bits turned over, forbidden ones among them. */
void change_control(struct datagram *datagram, struct random *random)
{
    uint32_t bit = 20 + random_below(random, 20);

    datagram->octets[bit / 8] ^= (uint8_t)(128 >> bit % 8);
}

static treat *const WAYS[] = {flip_bits, replace_octets, truncate_lent,
                              add_after, change_length,  change_control};

void spoil_twice(struct datagram *datagram, struct random *random)
{
    PICK(WAYS)(datagram, random);
    PICK(WAYS)(datagram, random);
}

/* Two of eight draws are for two ways. */
void spoil_somehow(struct datagram *datagram, struct random *random)
{
    uint32_t way = random_below(random, LENGTH(WAYS) + 2);

    if (way < LENGTH(WAYS))
        WAYS[way](datagram, random);
    else
        spoil_twice(datagram, random);
}
