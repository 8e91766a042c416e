/*
 * relay.h: the relay that tests of the C calls make them on. RECORDS, which may
 * be defined before, says how many records a call is lent.
 */
#ifndef RELAY_H
#define RELAY_H

#include <string.h>

#include "expect.h"
#include "harpjuniper.h"

#ifndef RECORDS
#define RECORDS 16
#endif
#define UNTOUCHED 0xa5
#define MASK_24 0xffffff00u

static hj_board board;
static hj_mission mission;
static hj_record routes[RECORDS + 1]; /* one more, to lend a list too long */

#define BOARD &board, HJ_BOARD_WORDS
#define MISSION &mission, HJ_MISSION_WORDS
#define ROUTES routes, RECORDS

static void set_port_of(uint32_t whose, uint32_t port, uint32_t address,
                        uint32_t mtu)
{
    expect(hj_set_port(BOARD, port, address, MASK_24, mtu, whose) == HJ_DONE,
           "set_port");
}

/* A router of mission 0, without routes. Ports 0 and 5 are in one domain, port
 * 3 is in another. */
static void set_up_router(uint32_t mtu_of_0)
{
    memset(routes, 0, sizeof routes);
    expect(hj_fresh_board(BOARD) == HJ_DONE &&
               hj_fresh_mission(MISSION, 0) == HJ_DONE &&
               hj_set_router(BOARD, 1) == HJ_DONE,
           "a router");
    set_port_of(0, 0, 0x0a0a0a02, mtu_of_0);
    set_port_of(0, 3, 0x0a0a0b02, 8191);
    set_port_of(0, 5, 0x0a0a0a06, 8191);
}

#endif
