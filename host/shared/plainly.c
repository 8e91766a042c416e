/*
 * plainly.c: host/plain takes a record where the library takes its numbers one
 * by one, so the records are made here. Numbers that a call does not take are
 * looked at and not used.
 */
#include "plainly.h"

#include <stdlib.h>

plain_view plainly_view(struct plainly *relay, uint32_t mission,
                        plain_list list)
{
    plain_view view = {&relay->board,
                       &relay->missions[mission],
                       {list.records, list.count}};

    return view;
}

/* The operator's. */
static plain_refusal set_board(plain_board *board, plain_list list,
                               enum call call, const uint32_t *n)
{
    plain_port port = {{n[1]}, {n[2]}, n[3], n[4]};
    plain_record record = {1, {n[1]}, {n[2]}, n[3], n[4], n[5], n[6]};

    switch (call) {
    case CALL_FRESH_BOARD:
        plain_board_fresh(board);
        return PLAIN_GOOD;
    case CALL_SET_ROUTER:
        return plain_set_router(board, n[0]);
    case CALL_SET_LIFETIME:
        return plain_set_lifetime(board, n[0]);
    case CALL_SET_ECHO_DROP:
        return plain_set_echo_drop(board, n[0]);
    case CALL_SET_PORT:
        return plain_set_port(board, n[0], &port);
    case CALL_SET_ROUTE:
        return plain_set_route(board, list, n[0], &record);
    case CALL_CLEAR_ROUTE:
        return plain_clear_route(list, n[0]);
    default:
        abort();
    }
}

plain_refusal plainly_set(struct plainly *relay, uint32_t mission,
                          plain_list list, enum call call, const uint32_t *n)
{
    plain_view view = plainly_view(relay, mission, list);
    plain_group group = {{n[1]}, {n[2]}, {n[3]}};
    plain_path_place path = {{n[1]}, {n[2]}, n[3]};

    switch (call) {
    case CALL_FRESH_MISSION:
        return plain_mission_fresh(view.mission, n[0]);
    case CALL_SET_GROUP:
        return plain_set_group(&view, n[0], &group);
    case CALL_SET_PATH:
        return plain_set_path(&view, n[0], &path);
    case CALL_CLEAR_GROUP:
        return plain_clear_group(view.mission, n[0]);
    case CALL_CLEAR_PATH:
        return plain_clear_path(view.mission, n[0]);
    case CALL_SWEEP:
        return plain_sweep(&view, n[0]);
    default:
        return set_board(&relay->board, list, call, n);
    }
}
