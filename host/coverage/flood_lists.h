/*
 * flood_lists.h: what coverage counts of floods, seconds and sweeps, in the
 * form of relay_lists.h. `r` is a receipt, `w` a sweep, `v` the view before it.
 */
#ifndef COVERAGE_FLOOD_LISTS_H
#define COVERAGE_FLOOD_LISTS_H

#include <string.h>

#include "relay_lists.h"

/* Of the pairs that are held, those that are like a flood's in part. */
struct alike {
    bool other_format;  /* the same source and time in another format */
    bool other_p_field; /* and of one format, with another P-field */
    bool other_source;  /* the same timestamp of another source */
};

/* A sweep, and what it finds. */
struct swept {
    uint32_t number, second;
    uint32_t held, freed;
    bool equal;    /* a pair as old as the lifetime */
    bool one_over; /* one that is a second older */
};

#define LATEST 0xffffffffu

#define SECOND_LIST(ROW)                                                      \
    ROW("29, one under the last second",                                      \
        r->refusal == 29 && r->second + 1 == LAST)                            \
    ROW("29, of a flooded datagram", r->refusal == 29 && r->flooded)          \
    ROW("29 before 1", r->refusal == 29 && r->lent < 3)                       \
    ROW("16 before 29", r->refusal == 16 && r->second < LAST)                 \
    ROW("17 before 29", r->refusal == 17 && r->second < LAST)                 \
    ROW("21 before 29", r->refusal == 21 && r->second < LAST)                 \
    ROW("16 or 17, a later second not accepted",                              \
        (r->refusal == 16 || r->refusal == 17) && r->second > LAST)           \
    ROW("1 to 8, a later second accepted",                                    \
        r->refusal >= 1 && r->refusal <= 8 && r->second > LAST)               \
    ROW("28, a later second accepted",                                        \
        r->refusal == 28 && r->second > LAST)                                 \
    ROW("0, the last second again", r->refusal == 0 && r->second == LAST)     \
    ROW("0, a later second", r->refusal == 0 && r->second > LAST)             \
    ROW("0, the greatest second", r->refusal == 0 && r->second == LATEST)     \
    ROW("29, after the greatest second", r->refusal == 29 && LAST == LATEST)
#define LAST (view_now(v)->last_second)

/* A flooded datagram that the onward half's rule for floods decided. */
#define HELD (BY("flood") && r->pair != NULL && r->pair->held)
#define KEPT (BY("flood") && view_keeps(r->onward))
#define FLOODED_TO(name) (BY(name) && r->flooded)

#define FLOOD_LIST(ROW)                                                       \
    ROW("held: no, and not asked",                                            \
        HELD && r->local == 0 && r->onward == 0)                              \
    ROW("held: delivered", HELD && r->local == 1 && r->onward == 0)           \
    ROW("held: 26", HELD && r->local == 26 && r->onward == 0)                 \
    ROW("held: kept of the other form of its source",                         \
        HELD && r->pair->extended != r->datagram.extended)                    \
    ROW("held: in a later second", HELD && r->pair->second < r->second)       \
    ROW("held: all places are", HELD && view_held(v) == VIEW_PAIRS)           \
    ROW("a port's address: not asked",                                        \
        FLOODED_TO("own") && r->named.own && r->onward == 0)                  \
    ROW("limited broadcast: not asked",                                       \
        FLOODED_TO("own") && r->named.limited && r->onward == 0)              \
    ROW("a port's address or limited broadcast, a pair that is new",          \
        FLOODED_TO("own") && r->pair == NULL)                                 \
    ROW("host: 9", FLOODED_TO("host") && r->onward == 9)                      \
    ROW("host: not asked", FLOODED_TO("host") && r->onward == 0)              \
    ROW("30, no", BY("flood") && r->onward == 30 && r->local == 0)            \
    ROW("30, delivered", BY("flood") && r->onward == 30 && r->local == 1)     \
    ROW("kept: sent on", KEPT && r->onward == 1)                              \
    ROW("kept: sent on to two ports or more",                                 \
        KEPT && (r->took & (r->took - 1)) != 0)                               \
    ROW("kept: delivered and sent on",                                        \
        KEPT && r->local == 1 && r->onward == 1)                              \
    ROW("kept: 26 and sent on", KEPT && r->local == 26 && r->onward == 1)     \
    ROW("kept: 10", KEPT && r->onward == 10)                                  \
    ROW("kept: 11, no other port", KEPT && r->onward == 11)                   \
    ROW("kept: 14", KEPT && r->onward == 14)                                  \
    ROW("kept: 15", KEPT && r->onward == 15)                                  \
    ROW("kept: of the second mission", KEPT && v->mission == 1)               \
    ROW("kept: again after a free", KEPT && r->pair != NULL)                  \
    ROW("kept: the 64th", KEPT && view_held(v) == VIEW_PAIRS - 1)             \
    ROW("kept: timestamp, implicit P-field",                                  \
        KEPT && r->datagram.stamp_format == 1)                                \
    ROW("kept: timestamp, explicit P-field",                                  \
        KEPT && r->datagram.stamp_format == 2)                                \
    ROW("kept: timestamp, binary", KEPT && r->datagram.stamp_format == 3)     \
    ROW("kept: a time of over 32 bits", KEPT && r->datagram.time >> 32 != 0)  \
    ROW("kept: the same time held in another format",                         \
        KEPT && alike.other_format)                                           \
    ROW("kept: the same time held with another P-field",                      \
        KEPT && alike.other_p_field)                                          \
    ROW("kept: the same timestamp held of another source",                    \
        KEPT && alike.other_source)                                           \
    ROW("sent on: one octet", KEPT && r->took && !r->datagram.extended)       \
    ROW("sent on: widened", KEPT && rewritten(r) != 0)                        \
    ROW("sent on: kept and widened at once",                                  \
        KEPT && rewritten(r) != 0 && kept(r) != 0)                            \
    ROW("sent on: hop count 2", KEPT && r->took &&                            \
                                    r->datagram.hop_count == 2)               \
    ROW("sent on: a unit without a route",                                    \
        KEPT && r->took && !r->named.multicast && !view_ours(&r->named) &&    \
            r->named.found.route == NULL)                                     \
    ROW("sent on: none added that a route asks for",                          \
        KEPT && r->took && r->there == 0 && route_of(r)->capabilities == 4)   \
    ROW("sent on: multicast without a group",                                 \
        KEPT && r->took && r->named.multicast && r->named.group == NULL)      \
    ROW("sent on: a broadcast of ours",                                       \
        KEPT && r->took && view_ours(&r->named))                              \
    ROW("sent on: a port struck out by its MTU",                              \
        KEPT && r->took && (r->named.others & r->small) != 0)                 \
    ROW("sent on: another port full",                                         \
        KEPT && r->took && (r->named.others & r->full & ~r->small) != 0)

#define SWEEP_LIST(ROW)                                                       \
    ROW("sweep: 0, no pair is held", w->number == 0 && w->held == 0)          \
    ROW("sweep: 0, none freed of those held",                                 \
        w->number == 0 && w->held > 0 && w->freed == 0)                       \
    ROW("sweep: 0, some freed and others not",                                \
        w->number == 0 && w->freed > 0 && w->freed < w->held)                 \
    ROW("sweep: 0, all freed",                                                \
        w->number == 0 && w->freed > 0 && w->freed == w->held)                \
    ROW("sweep: 0, with all places held",                                     \
        w->number == 0 && w->held == VIEW_PAIRS)                              \
    ROW("sweep: 0, an age equal to the lifetime",                             \
        w->number == 0 && w->equal)                                           \
    ROW("sweep: 0, an age one over it", w->number == 0 && w->one_over)        \
    ROW("sweep: 0, lifetime 0 and a pair held",                               \
        w->number == 0 && w->held > 0 && v->lifetime == 0)                    \
    ROW("sweep: 0, the greatest lifetime and a pair held",                    \
        w->number == 0 && w->held > 0 && v->lifetime == LATEST)               \
    ROW("sweep: 0, the last second again",                                    \
        w->number == 0 && w->second == LAST)                                  \
    ROW("sweep: 0, for mission 1", w->number == 0 && v->mission == 1)         \
    ROW("sweep: 29, one under the last second",                               \
        w->number == 29 && w->second + 1 == LAST)                             \
    ROW("sweep: 29, of a pair that is held", w->number == 29 && w->held > 0)

#endif
