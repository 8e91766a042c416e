/*
 * Four-octet addresses, masks and path addresses. Each kind is a structure of
 * its own around the same 32 bits, so that the compiler refuses to take one
 * for another. The first octet of w.x.y.z is the most significant.
 */
#ifndef PLAIN_ADDRESS_H
#define PLAIN_ADDRESS_H

#include <stdbool.h>
#include <stdint.h>

typedef struct { uint32_t bits; } plain_address;
typedef struct { uint32_t bits; } plain_mask;
typedef struct { uint32_t bits; } plain_path;

typedef enum {
    PLAIN_INVALID = 0,
    PLAIN_UNICAST = 1,
    PLAIN_MULTICAST = 2,
    PLAIN_NET_BROADCAST = 3,
    PLAIN_DOMAIN_BROADCAST = 4,
    PLAIN_ALL_SCPS_BROADCAST = 5,
    PLAIN_LIMITED_BROADCAST = 6
} plain_class;

plain_class plain_address_class(plain_address address);

/* The host bits of the address's class network (class A, B or C, net 10
 * included), or 0 where it belongs to none. */
uint32_t plain_class_host_bits(plain_address address);

bool plain_path_valid(plain_path path);

/* Ones and then zeros; no ones and all ones are such masks too. */
bool plain_mask_contiguous(plain_mask mask);

uint32_t plain_mask_ones(plain_mask mask);

#endif
