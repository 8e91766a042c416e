/*
 * router.h: the router that the tests of headers and floods call, and an output
 * with guards around it. What a call is to leave of the output is put into
 * `due`, and then both are compared, guards included.
 */
#ifndef ROUTER_H
#define ROUTER_H

#include "relay.h"

#define GUARD 64

static uint8_t space[GUARD + HJ_OUTPUT_ROOM + 100 + GUARD];
static uint8_t due[sizeof space];
static uint8_t *const output = space + GUARD;

static void set_port(uint32_t port, uint32_t address, uint32_t mtu)
{
    set_port_of(0, port, address, mtu);
}

static void set_up(void)
{
    set_up_router(8191);
}

/* No octet of the output is touched, and none is due. */
static void clear_output(void)
{
    memset(space, UNTOUCHED, sizeof space);
    memset(due, UNTOUCHED, sizeof due);
}

#endif
