/*
 * form.h: the form of a header to try, chosen at random and written as octets.
 * It is a third writing of 003's header beside the library's builder and the
 * plain one, since neither of those can write what the reader must also meet:
 * control fields longer than they need be, and wrong ones.
 */
#ifndef FORM_H
#define FORM_H

#include <stdbool.h>
#include <stddef.h>
#include <stdint.h>

#include "random.h"

#define FORM_MOST_HEADER 50

struct form {
    unsigned tp_id;
    unsigned address_octets; /* 1, 4 or 16 */
    bool has_source;
    bool has_qos;
    bool has_hop_count;
    unsigned stamp_format; /* 0 to 3 */
    bool has_expanded;
    bool has_checksum;
    bool intermediate;
    unsigned control_octets; /* 1 to 3, the half octet counted as one */
    uint8_t destination[16];
    uint8_t source[16];
    unsigned precedence;
    unsigned routing;
    unsigned program;
    uint8_t hop_count;
    uint8_t p_field;
    uint8_t time[7];
    uint8_t expanded;
};

/* One of the five address types and any of the other elements. */
void form_choose(struct form *form, struct random *random);

/* The fewest control octets that these elements can be said in. */
unsigned form_shortest_control(const struct form *form);

/* Puts the last octets of an address, as many as the form has, into its
 * destination or source. An IPv6 address stays what it is. */
void form_put_address(const struct form *form, uint8_t *octets,
                      uint32_t address);

/* Octets of the time field; the P-field octet is not among them. */
unsigned form_time_octets(const struct form *form);

/* Writes the header of a datagram with this much data; answers its length. */
size_t form_write(const struct form *form, size_t data, uint8_t *octets);

/* RFC 1071, over octets with the checksum element zero or not yet there. */
uint16_t form_checksum(const uint8_t *octets, size_t count);

#endif
