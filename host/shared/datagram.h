/*
 * datagram.h: a datagram to try, as it is lent: the form of its header, and the
 * octets that are there. It is good when written, and may then be spoiled.
 */
#ifndef DATAGRAM_H
#define DATAGRAM_H

#include <stddef.h>
#include <stdint.h>

#include "form.h"
#include "random.h"

#define DATAGRAM_MOST_LENGTH 8191
/* Room for a datagram and the octets that may follow it. */
#define DATAGRAM_MOST_LENT (DATAGRAM_MOST_LENGTH + 16)

struct datagram {
    struct form form;
    size_t header;
    size_t count;
    uint8_t octets[DATAGRAM_MOST_LENT];
};

/* Writes the header of its form, and this much random data after it. */
void datagram_write(struct datagram *datagram, size_t data,
                    struct random *random);

void datagram_carry_checksum(struct datagram *datagram, uint16_t checksum);

/* What may be done to a good datagram. */
typedef void treat(struct datagram *datagram, struct random *random);

treat keep;
treat flip_bits;
treat replace_octets;
treat truncate_lent;
treat add_after;
treat change_length;
treat change_control;
/* Two of them at once, which tries the order of the reader's checks. */
treat spoil_twice;
/* One of the six, or two. */
treat spoil_somehow;

#endif
