/*
 * header_mixed.c: programs that mix up what is lent. Without a definition it is
 * a good program; with -DMIXED=N it is one of the wrong ones, and must not
 * compile. `make header` tries each of them, MIXED=1 to MIXED_LAST.
 */
#include "harpjuniper.h"

#define MIXED_LAST 16

#ifndef MIXED
#define MIXED 0
#endif

#define BOARD &board, HJ_BOARD_WORDS
#define MISSION &mission, HJ_MISSION_WORDS
#define ROUTES routes, HJ_ROUTES

hj_board board;
hj_mission mission;
hj_record routes[HJ_ROUTES];
uint8_t octets[HJ_OUTPUT_ROOM];
hj_arrival arrival;
hj_batch batch;
uint32_t ports[1];
uint16_t slots[1];
hj_verdict answers[1];

int mixed(void);

int mixed(void)
{
#if MIXED == 0
    return hj_refusal(hj_take(BOARD, MISSION, 0)) +
           hj_ended_by(hj_receive(BOARD, MISSION, ROUTES, arrival, octets, 0,
                                  octets, 0)) +
           hj_receive_batch(BOARD, MISSION, ROUTES, &batch, octets, 0) +
           hj_receive_many(BOARD, MISSION, ROUTES, ports, 1, ports, 1, slots,
                           1, ports, 1, octets, 0, answers, 1, octets,
                           0) != 0;
#elif MIXED == 1 /* the two words swapped */
    return hj_refusal(hj_take(MISSION, BOARD, 0)) != 0;
#elif MIXED == 2 /* a mission for a board */
    return hj_fresh_board(MISSION) != 0;
#elif MIXED == 3 /* a board for a mission */
    return hj_fresh_mission(BOARD, 0) != 0;
#elif MIXED == 4 /* a mission for the routes */
    return hj_clear_route(MISSION, 0) != 0;
#elif MIXED == 5 /* the routes for a board */
    return hj_refusal(hj_get_router(ROUTES)) != 0;
#elif MIXED == 6 /* a mission may not write the board that it is lent */
    const hj_board *lent = &board;
    return hj_set_router(lent, HJ_BOARD_WORDS, 1) != 0;
#elif MIXED == 7 /* nor the routes */
    const hj_record *lent = routes;
    return hj_clear_route(lent, HJ_ROUTES, 0) != 0;
#elif MIXED == 8 /* a port and a slot for the arrival */
    return hj_ended_by(hj_receive(BOARD, MISSION, ROUTES, 0, octets, 0, octets,
                                  0)) != 0;
#elif MIXED == 9 /* the two words of a sweep swapped */
    return hj_sweep(MISSION, BOARD, 0) != 0;
#elif MIXED == 10 /* the lifetime is the board's */
    return hj_set_lifetime(MISSION, 0) != 0;
#elif MIXED == 11 /* and the last second the mission's */
    return hj_refusal(hj_last_second(BOARD)) != 0;
#elif MIXED == 12 /* echo drop is the board's, for both missions */
    return hj_set_echo_drop(MISSION, 1) != 0;
#elif MIXED == 13 /* the two words of an echo swapped */
    return hj_ended_by(hj_echo(MISSION, BOARD, ROUTES, 0, 0, octets, 0, octets,
                               0)) != 0;
#elif MIXED == 14 /* and of a batch */
    return hj_receive_batch(MISSION, BOARD, ROUTES, &batch, octets, 0) != 0;
#elif MIXED == 15 /* its ports for its slots */
    return hj_receive_many(BOARD, MISSION, ROUTES, ports, 1, slots, 1, ports,
                           1, ports, 1, octets, 0, answers, 1, octets, 0) != 0;
#elif MIXED == 16 /* and its output for its answers */
    return hj_receive_many(BOARD, MISSION, ROUTES, ports, 1, ports, 1, slots,
                           1, ports, 1, octets, 0, octets, 1, answers,
                           0) != 0;
#endif
}
