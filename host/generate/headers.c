/*
 * headers.c: `read` lines of sixteen kinds, from good headers of every form
 * down to random octets. Most strings are short, so that a million of them stay
 * small. The awkward case is a checksum of 0000, which chance would hardly ever
 * hit: two octets of the address are chosen for it.
 */
#include "headers.h"

#include <string.h>

#include "line.h"
#include "shared/datagram.h"

#define MOST_BUILT_DATA 8141

static size_t choose_data(struct random *random)
{
    switch (random_below(random, 4096)) {
    case 0:
        return random_below(random, DATAGRAM_MOST_LENGTH -
                                        FORM_MOST_HEADER + 1);
    case 1:
        return MOST_BUILT_DATA - random_below(random, 3);
    default:
        return random_below(random, 10);
    }
}

static void make_good(struct datagram *datagram, struct random *random)
{
    form_choose(&datagram->form, random);
    datagram_write(datagram, choose_data(random), random);
}

static void make_longer_control(struct datagram *datagram,
                                struct random *random)
{
    form_choose(&datagram->form, random);
    if (datagram->form.control_octets < 3)
        datagram->form.control_octets +=
            1 + random_below(random, 3 - datagram->form.control_octets);
    datagram_write(datagram, choose_data(random), random);
}

/* The whole length, over the builder's limit for data. */
static void make_longest(struct datagram *datagram, struct random *random)
{
    uint8_t header[FORM_MOST_HEADER];

    if (!random_one_in(random, 256)) {
        make_good(datagram, random);
        return;
    }
    form_choose(&datagram->form, random);
    datagram_write(datagram,
                   DATAGRAM_MOST_LENGTH -
                       form_write(&datagram->form, 0, header),
                   random);
}

static void make_wrong_checksum(struct datagram *datagram,
                                struct random *random)
{
    static const uint16_t CARRIED[] = {0x0000, 0xffff, 0x00ff, 0xff00};

    form_choose(&datagram->form, random);
    datagram->form.has_checksum = true;
    datagram_write(datagram, choose_data(random), random);
    datagram_carry_checksum(datagram, PICK(CARRIED));
}

/* A header whose checksum is due to be 0000, and 0000 or FFFF carried: two
 * octets of its address make up for all the others. */
static void make_zero_due(struct datagram *datagram, struct random *random)
{
    size_t at;
    uint16_t rest;

    do
        form_choose(&datagram->form, random);
    while (datagram->form.address_octets != 4);
    datagram->form.has_checksum = true;
    datagram_write(datagram, choose_data(random), random);
    at = 2 + datagram->form.control_octets;
    memset(datagram->octets + at, 0, 2);
    rest = form_checksum(datagram->octets, datagram->header - 2);
    datagram->octets[at + at % 2] = (uint8_t)(rest >> 8);
    datagram->octets[at + 1 - at % 2] = (uint8_t)rest;
    datagram_carry_checksum(datagram,
                            random_one_in(random, 2) ? 0x0000 : 0xffff);
}

static void make_random(struct datagram *datagram, struct random *random)
{
    datagram->count = random_below(random, 61);
    random_octets(random, datagram->octets, (uint32_t)datagram->count);
    if (datagram->count > 1 && !random_one_in(random, 4)) {
        datagram->octets[0] = 1 << 5;
        datagram->octets[1] = (uint8_t)random_below(random, 61);
    }
}

void write_headers(uint64_t count, struct random *random)
{
    static const struct {
        treat *make;
        treat *spoil;
    } KINDS[16] = {{make_good, keep},
                   {make_good, keep},
                   {make_good, keep},
                   {make_longest, keep},
                   {make_longer_control, keep},
                   {make_good, flip_bits},
                   {make_good, replace_octets},
                   {make_good, truncate_lent},
                   {make_good, add_after},
                   {make_good, change_length},
                   {make_wrong_checksum, keep},
                   {make_zero_due, keep},
                   {make_good, change_control},
                   {make_longer_control, spoil_twice},
                   {make_longer_control, spoil_twice},
                   {make_random, keep}};
    static struct datagram datagram;

    for (uint64_t i = 0; i < count; i++) {
        KINDS[i % 16].make(&datagram, random);
        KINDS[i % 16].spoil(&datagram, random);
        line_octets(CALL_READ, NULL, datagram.octets, datagram.count);
    }
}
