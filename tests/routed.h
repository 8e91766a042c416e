/*
 * routed.h: the router that the tests of echoes and batches call, with routes
 * and a port of the other mission, and octets written as digits.
 */
#ifndef ROUTED_H
#define ROUTED_H

#include <stdlib.h>

#include "relay.h"

static void set_route(uint32_t place, uint32_t prefix, uint32_t mask,
                      uint32_t port, uint32_t capabilities)
{
    expect(hj_set_route(BOARD, ROUTES, place, prefix, mask, port, HJ_UP,
                        capabilities, 0) == HJ_DONE,
           "set_route");
}

/* Port 4 is the other mission's. One route adds all that can be added, the
 * other nothing. */
static void set_up_routed(uint32_t mtu_of_0)
{
    set_up_router(mtu_of_0);
    set_port_of(1, 4, 0x0a0a0c02, 8191);
    set_route(0, 0x0a04090e, 0xffffffff, 3, HJ_CAPABLE_BOTH);
    set_route(1, 0x0a040900, MASK_24, 5, HJ_CAPABLE_NONE);
}

static uint32_t counter(uint32_t which)
{
    return hj_value(hj_counter(MISSION, which));
}

/* The octets of hexadecimal digits; how many they are. */
static size_t octets_of(const char *digits, uint8_t *octets)
{
    size_t count = strlen(digits) / 2;

    for (size_t i = 0; i < count; i++) {
        char pair[3] = {digits[2 * i], digits[2 * i + 1], '\0'};

        octets[i] = (uint8_t)strtoul(pair, NULL, 16);
    }
    return count;
}

#endif
