/*
 * batch_lists.h: what coverage counts of batches, in the form of relay_lists.h.
 * `b` is a batch, `r` one of its items, `v` the view before it.
 */
#ifndef COVERAGE_BATCH_LISTS_H
#define COVERAGE_BATCH_LISTS_H

#include <string.h>

#include "relay_lists.h"
#include "shared/items.h"

/* What does not fit, a set. */
enum {
    OTHER_PORTS = 1, /* another number of them than of lengths, so below */
    OTHER_SLOTS = 2,
    OTHER_SECONDS = 4,
    TOO_MANY = 8,
    SUM_OVER = 16,
    SHORT_ROOM = 32
};

struct batch {
    uint32_t refusal;
    struct items_lent lent;
    uint32_t faults;
    size_t at;                  /* of the items, the one that is looked at */
    struct view_mission before; /* as the batch found it */
    bool was_refused;           /* the item before, by itself */
    bool was_sought;            /* an item took the route line, the last one: */
    uint32_t sought;            /* its destination */
    size_t since;               /* and the items behind it */
};

/* Refused by 27 for one reason alone. */
#define ONLY(faults_of) (b->refusal == 27 && b->faults == (faults_of))
#define HEARD (b->refusal == 0)
#define ITEMS b->lent.lengths

#define BATCH_LIST(ROW)                                                       \
    ROW("batch: no item, and no room", HEARD && ITEMS == 0 && !b->lent.room)  \
    ROW("batch: no item, and room or octets",                                 \
        HEARD && ITEMS == 0 && b->lent.room + b->lent.octets > 0)             \
    ROW("batch: one item", HEARD && ITEMS == 1)                               \
    ROW("batch: 64 items", HEARD && ITEMS == 64)                              \
    ROW("batch: of the second mission", HEARD && ITEMS > 0 && v->mission)     \
    ROW("batch: all octets are the items'",                                   \
        HEARD && ITEMS > 0 && b->lent.octets == b->lent.sum)                  \
    ROW("batch: octets beyond the items'", HEARD && ITEMS > 0 &&              \
                                               b->lent.octets > b->lent.sum)  \
    ROW("batch: room of 400 octets an item",                                  \
        HEARD && ITEMS > 0 && b->lent.room == 400 * ITEMS)                    \
    ROW("batch: more room", HEARD && ITEMS > 0 && b->lent.room > 400 * ITEMS) \
    ROW("27, 65 items alone", ONLY(TOO_MANY) && ITEMS == 65)                  \
    ROW("27, a port more alone",                                              \
        ONLY(OTHER_PORTS) && b->lent.ports == ITEMS + 1)                      \
    ROW("27, a port less alone",                                              \
        ONLY(OTHER_PORTS) && b->lent.ports + 1 == ITEMS)                      \
    ROW("27, a slot more alone",                                              \
        ONLY(OTHER_SLOTS) && b->lent.slots == ITEMS + 1)                      \
    ROW("27, a slot less alone",                                              \
        ONLY(OTHER_SLOTS) && b->lent.slots + 1 == ITEMS)                      \
    ROW("27, a second more alone",                                            \
        ONLY(OTHER_SECONDS) && b->lent.seconds == ITEMS + 1)                  \
    ROW("27, a second less alone",                                            \
        ONLY(OTHER_SECONDS) && b->lent.seconds + 1 == ITEMS)                  \
    ROW("27, a length more or less than of all others",                       \
        b->refusal == 27 &&                                                   \
            (b->faults & ~(uint32_t)(SUM_OVER | SHORT_ROOM)) ==               \
                (OTHER_PORTS | OTHER_SLOTS | OTHER_SECONDS))                  \
    ROW("27, the sum one over the octets alone",                              \
        ONLY(SUM_OVER) && b->lent.sum == b->lent.octets + 1)                  \
    ROW("27, a sum over 32 bits alone",                                       \
        ONLY(SUM_OVER) && b->lent.sum >> 32 != 0)                             \
    ROW("27, a sum that fits modulo 2^32 alone",                              \
        ONLY(SUM_OVER) && b->lent.sum >> 32 != 0 &&                           \
            (uint32_t)b->lent.sum <= b->lent.octets)                          \
    ROW("27, the room one octet short alone",                                 \
        ONLY(SHORT_ROOM) && b->lent.room + 1 == 400 * ITEMS)                  \
    ROW("27, the room further short alone",                                   \
        ONLY(SHORT_ROOM) && b->lent.room + 1 < 400 * ITEMS)                   \
    ROW("27, two reasons and more",                                           \
        b->refusal == 27 && (b->faults & (b->faults - 1)) != 0)               \
    ROW("21, and nothing else", b->refusal == 21 && b->faults == 0)           \
    ROW("21 before 27", b->refusal == 21 && b->faults != 0)

/* An item that is neither the first nor the last. */
#define MIDDLE (b->at > 0 && b->at + 1 < ITEMS)
#define SENT_ON (r->refusal == 0 && r->onward == 1)
#define BY_ROUTE (r->refusal == 0 && strcmp(r->line, "route") == 0)
#define AGAIN                                                                 \
    (BY_ROUTE && b->was_sought && b->sought == r->named.destination)

#define ITEM_LIST(ROW)                                                        \
    ROW("item: 16 in the middle", MIDDLE && r->refusal == 16)                 \
    ROW("item: 29 in the middle", MIDDLE && r->refusal == 29)                 \
    ROW("item: 1 in the middle", MIDDLE && r->refusal == 1)                   \
    ROW("item: 2 to 8 in the middle",                                         \
        MIDDLE && r->refusal >= 2 && r->refusal <= 8)                         \
    ROW("item: 28 in the middle", MIDDLE && r->refusal == 28)                 \
    ROW("item: of length 0", r->lent == 0 && r->refusal == 1)                 \
    ROW("item: sent on behind a refused one", SENT_ON && b->was_refused)      \
    ROW("item: 29 by a second that an item before accepted",                  \
        r->refusal == 29 && r->second >= b->before.last_second)               \
    ROW("item: the second that an item before accepted",                      \
        SENT_ON && r->second == view_now(v)->last_second &&                   \
            r->second > b->before.last_second)                                \
    ROW("item: a pair that an item before kept is held",                      \
        r->refusal == 0 && held_by_item(v, b, r))                             \
    ROW("item: 15 by items before",                                           \
        BY_ROUTE && r->onward == 15 &&                                        \
            b->before.waits[route_port(r)] < VIEW_QUEUE)                      \
    ROW("item: to where the last routed one went, sent on",                   \
        AGAIN && r->onward == 1)                                              \
    ROW("item: to where the last routed one went, 11",                        \
        AGAIN && r->onward == 11)                                             \
    ROW("item: to where the last routed one went, others between",            \
        AGAIN && r->onward == 1 && b->since > 0)                              \
    ROW("item: to where the last routed one went, a refused one between",     \
        AGAIN && r->onward == 1 && b->since > 0 && b->was_refused)            \
    ROW("item: routed elsewhere than the last one",                           \
        BY_ROUTE && b->was_sought && !AGAIN && r->onward == 1)

#endif
