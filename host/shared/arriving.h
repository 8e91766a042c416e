/*
 * arriving.h: what a header says, as far as the rules for a received datagram
 * ask. It is for headers that were found good, and reads no octet beyond them.
 */
#ifndef ARRIVING_H
#define ARRIVING_H

#include <stdbool.h>
#include <stddef.h>
#include <stdint.h>

struct arriving {
    uint32_t length;
    uint32_t header;   /* its own octets */
    unsigned control;  /* octets of the control field, the half one counted */
    unsigned shortest; /* that these elements can be said in */
    unsigned tp_id;
    bool extended; /* addresses of four octets */
    bool ipv6;     /* of sixteen, their last four kept; else of one */
    bool has_source;
    bool intermediate;
    bool has_qos;
    bool has_hop_count;
    bool has_expanded;
    bool has_checksum;
    unsigned stamp_format; /* 0 where there is no timestamp */
    uint32_t p_field;      /* 0 where absent, so for the time */
    uint64_t time;
    uint32_t destination; /* a path where there is no source */
    uint32_t source;
    uint32_t precedence; /* 0 where absent, so for routing */
    uint32_t routing;
    uint32_t hop_count;
};

struct arriving arriving_read(const uint8_t *octets, size_t count);

/* The routing requirements of a flooded datagram. */
#define ARRIVING_FLOODED 3

#endif
