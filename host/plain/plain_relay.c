/*
 * What is fresh, whose a port is, and the ports' queues as seen from outside.
 * All zeros is the fresh board: a host (router no), no port set up, lifetime
 * 0, echo drop off; and but for the number a fresh mission: places empty,
 * queues empty, no pair kept, counters and last second 0.
 */
#include "plain_relay.h"

#include <string.h>

void plain_board_fresh(plain_board *board)
{
    memset(board, 0, sizeof *board);
}

plain_refusal plain_mission_fresh(plain_mission *mission, uint32_t number)
{
    if (number >= PLAIN_MISSIONS)
        return PLAIN_SET_CODE;
    memset(mission, 0, sizeof *mission);
    mission->number = number;
    return PLAIN_GOOD;
}

plain_set plain_own_ports(const plain_view *view)
{
    return view->board->owned[view->mission->number];
}

plain_refusal plain_take(const plain_view *view, uint32_t port,
                         plain_entry *entry)
{
    if (!plain_set_has(plain_own_ports(view), port))
        return PLAIN_NO_PORT;
    return plain_queue_take(&view->mission->queues[port], entry)
               ? PLAIN_GOOD
               : PLAIN_NOTHING_WAITS;
}

plain_refusal plain_waiting(const plain_mission *mission, uint32_t port,
                            uint32_t *waiting)
{
    if (port >= PLAIN_PORTS)
        return PLAIN_SET_NUMBER;
    *waiting = mission->queues[port].waiting;
    return PLAIN_GOOD;
}
