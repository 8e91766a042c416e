/*
 * lent_relay.c: one relay for all calls, since they come one after the other,
 * and a copy of what it is due to be. The guards stand in the same structure as
 * what they guard. After each call the copy is made what the call left of the
 * pieces that it may change, and then nothing differs.
 *
 * The awkward case is the list, whose end moves: the records behind it are its
 * guard, and of these only a few are looked at, since a million calls are.
 */
#include "lent_relay.h"

#include <string.h>

#include "shared/trace.h"

#define GUARD 16
#define UNTOUCHED 0xa5

static struct relay {
    uint32_t guard[GUARD];
    hj_board board;
    uint32_t board_end[GUARD];
    struct {
        hj_mission state;
        uint32_t end[GUARD];
    } missions[HJ_MISSIONS];
    hj_record routes[TRACE_MOST_RECORDS];
    uint32_t end[GUARD];
} relay, due;

#define GUARD_RECORDS 4

static uint32_t route_count;
static uint32_t mission; /* whose call it is */

static void set_guards(struct relay *guarded)
{
    memset(guarded->guard, UNTOUCHED, sizeof guarded->guard);
    memset(guarded->board_end, UNTOUCHED, sizeof guarded->board_end);
    for (int i = 0; i < HJ_MISSIONS; i++)
        memset(guarded->missions[i].end, UNTOUCHED,
               sizeof guarded->missions[i].end);
    memset(guarded->end, UNTOUCHED, sizeof guarded->end);
}

const struct library_lent *lent_relay(uint32_t whose)
{
    static struct library_lent lent = {&relay.board, HJ_BOARD_WORDS, NULL,
                                       HJ_MISSION_WORDS, relay.routes, 0};

    mission = whose;
    lent.mission = &relay.missions[whose].state;
    lent.route_count = route_count;
    return &lent;
}

static bool is_due(void)
{
    size_t looked_at = route_count + GUARD_RECORDS;

    if (looked_at > TRACE_MOST_RECORDS)
        looked_at = TRACE_MOST_RECORDS;
    return memcmp(&due, &relay, offsetof(struct relay, routes)) == 0 &&
           memcmp(due.routes, relay.routes,
                  looked_at * sizeof *relay.routes) == 0 &&
           memcmp(due.end, relay.end, sizeof relay.end) == 0;
}

void lent_relay_answer(struct text *answer, enum call_lent may_change)
{
    if (may_change & LENT_B)
        due.board = relay.board;
    if (may_change & LENT_M)
        due.missions[mission].state = relay.missions[mission].state;
    if (may_change & LENT_R)
        memcpy(due.routes, relay.routes, route_count * sizeof *relay.routes);
    if (!is_due())
        text_string(answer, answer->used > 0 ? " !" : "!");
}

void lent_records(uint32_t count)
{
    memset(relay.routes, 0, sizeof relay.routes);
    memset(due.routes, 0, sizeof due.routes);
    set_guards(&relay);
    set_guards(&due);
    route_count = count;
}

void lent_record(uint32_t place, const hj_record *record)
{
    if (place >= route_count)
        return;
    relay.routes[place] = *record;
    due.routes[place] = *record;
}
