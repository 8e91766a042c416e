/*
 * The SCPS-NP header (CCSDS 713.0-B-1, 3.2.2 to 3.2.4): reading it, building
 * it, and the header that a relay sends on.
 *
 * One structure of plain numbers holds the elements, for the reader and the
 * builder alike, so that what was read can be built again. Its numbers are
 * wider than their elements, because the builder, not its caller, is to judge
 * a number out of range. An element that is absent holds 0.
 */
#ifndef PLAIN_HEADER_H
#define PLAIN_HEADER_H

#include <stddef.h>
#include <stdint.h>

#include "plain_numbers.h"

/* 128 bits; an address of one or four octets is a number in the low half. */
typedef struct {
    uint64_t high;
    uint64_t low;
} plain_wide;

typedef enum {
    PLAIN_STAMP_NONE = 0,
    PLAIN_STAMP_IMPLICIT = 1, /* three octets, P-field not carried */
    PLAIN_STAMP_EXPLICIT = 2, /* P-field and the octets that it gives */
    PLAIN_STAMP_BINARY = 3    /* four octets */
} plain_stamp_format;

/* The routing requirements of table 3-7 that the relay carries. */
typedef enum {
    PLAIN_ROUTING_POINT_TO_POINT = 0,
    PLAIN_ROUTING_FLOOD = 3
} plain_routing;

typedef struct {
    uint32_t tp_id;
    uint32_t source_present;
    uint32_t extended;
    uint32_t ipv6;
    plain_wide destination; /* a path where there is no source */
    plain_wide source;
    uint32_t basic_qos_present;
    uint32_t precedence;
    uint32_t routing;
    uint32_t program;
    uint32_t hop_present;
    uint32_t hop;
    uint32_t stamp_format;
    uint32_t p_field; /* of the explicit format alone */
    uint64_t time;    /* the octets after it as one number */
    uint32_t expanded_present;
    uint32_t expanded;
    uint32_t checksum_present;
    uint32_t intermediate;
} plain_fields;

typedef struct {
    plain_fields fields;
    uint32_t length; /* the length field: of the whole datagram */
    uint32_t header_length;
    uint32_t hop_at; /* where the hop count stands, if it is present */
} plain_header;

/* How many octets a timestamp of this format takes, P-field included. */
uint32_t plain_stamp_octets(uint32_t format, uint32_t p_field);

/* How many octets an address of these fields takes: 1, 4 or 16. */
uint32_t plain_address_octets(const plain_fields *fields);

/* Answers 0 or the refusals 1 to 5 in the order of page 01; header is written
 * only with 0. Octets beyond the length field are never judged, but for those
 * of the control field. */
plain_refusal plain_header_read(const uint8_t *octets, size_t count,
                                plain_header *header);

/* Answers 0 or the refusals 17, 19, 20 in this order; only with 0 are
 * header_length and as many octets of output written. */
plain_refusal plain_header_build(const plain_fields *fields, uint32_t data,
                                 uint8_t *output, size_t room,
                                 uint32_t *header_length);

/* How many octets the header of these fields, which fit, has when built. */
uint32_t plain_header_measure(const plain_fields *fields);

/* Writes that header, as long as measured, for so much data that the two are
 * at most 8,191 octets; the builder's own limit on data does not hold here. */
void plain_header_write(const plain_fields *fields, uint32_t header_length,
                        uint32_t data, uint8_t *output);

/* Writes to output the header that was read from octets, hop count less one
 * and checksum redone, where present; nothing beyond header_length. */
void plain_header_send_on(const plain_header *header, const uint8_t *octets,
                          uint8_t *output);

#endif
