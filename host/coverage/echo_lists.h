/*
 * echo_lists.h: what coverage counts of echo requests, in the form of
 * relay_lists.h. `e` is an echo line, `v` the view before it.
 */
#ifndef COVERAGE_ECHO_LISTS_H
#define COVERAGE_ECHO_LISTS_H

#include "view.h"

/* What keeps a request from being answered, a set. */
enum {
    NOT_SOUND = 1, /* no header that a length field holds */
    NOT_SCMP = 2,
    NOT_REQUEST = 4, /* by its type */
    BAD_CODE = 8,
    SHORT_MESSAGE = 16,
    BAD_SUM = 32,
    NO_SOURCE = 64,
    NO_HOPS = 128,
    FLOODED = 256,
    NOT_DELIVERED = 512,
    TO_MANY = 1024,
    DROPPED = 2048,
    SMALL_MTU = 4096
};

struct echo {
    uint32_t arrival, room, refusal, onward, took;
    size_t lent;
    struct arriving datagram;
    struct naming named;
    uint32_t faults;
    uint32_t type;               /* of the message; 256 where there is none */
    uint32_t source;             /* of the datagram, as four octets */
    const struct view_route *to; /* the route back; an empty one for none */
    bool others;                 /* the other mission has a longer one */
    bool widened, checked;       /* as the route sends it */
    uint32_t mtu;                /* of the arrival port */
    uint32_t fixed;              /* octets of the reply before its data */
    uint32_t data;               /* of the request */
    uint32_t made;               /* octets of the reply, cut */
    uint32_t size;               /* and as it would be sent */
    uint32_t to_mtu;             /* of the port that it goes to */
};

/* An answer that is none, for one reason alone. */
#define NONE(faults_of)                                                       \
    (e->refusal == 0 && e->onward == 0 && e->faults == (faults_of))
#define SENT (e->refusal == 0 && e->onward == 1)
#define CUT (SENT && e->made < e->fixed + e->data)
#define WHOLE (SENT && e->made == e->fixed + e->data)
#define CAME e->datagram

#define ECHO_REFUSED_LIST(ROW)                                                \
    ROW("16, port over 7", e->refusal == 16 && e->arrival >= VIEW_PORTS)      \
    ROW("16, port not set up",                                                \
        e->refusal == 16 && e->arrival < VIEW_PORTS &&                        \
            (view_set_up(v) >> e->arrival & 1) == 0)                          \
    ROW("16, the other mission's port",                                       \
        e->refusal == 16 && e->arrival < VIEW_PORTS &&                        \
            (view_set_up(v) >> e->arrival & 1) != 0)                          \
    ROW("17, one under the arrival port's MTU",                               \
        e->refusal == 17 && e->room + 1 == e->mtu)                            \
    ROW("17, further under it", e->refusal == 17 && e->room + 1 < e->mtu)     \
    ROW("17, of what gets no reply", e->refusal == 17 && e->faults != 0)      \
    ROW("21 before 17", e->refusal == 21 && e->room < e->mtu)

#define ECHO_NONE_LIST(ROW)                                                   \
    ROW("none: no sound header", e->onward == 0 && e->faults & NOT_SOUND)     \
    ROW("none: not a control message", NONE(NOT_SCMP))                        \
    ROW("none: a reply", NONE(NOT_REQUEST) && e->type == 0)                   \
    ROW("none: another type", NONE(NOT_REQUEST) && e->type != 0)              \
    ROW("none: a code that is not 0", NONE(BAD_CODE))                         \
    ROW("none: under 8 octets of message", NONE(SHORT_MESSAGE))               \
    ROW("none: the message's checksum", NONE(BAD_SUM))                        \
    ROW("none: no source", NONE(NO_SOURCE))                                   \
    ROW("none: no hop count", NONE(NO_HOPS))                                  \
    ROW("none: flooded", NONE(FLOODED))                                       \
    ROW("none: not delivered", NONE(NOT_DELIVERED))                           \
    ROW("none: limited broadcast", NONE(TO_MANY) && e->named.limited)         \
    ROW("none: broadcast of all SCPS",                                        \
        NONE(TO_MANY) && e->named.destination == 0x0affffff)                  \
    ROW("none: net broadcast of a port", NONE(TO_MANY) && e->named.net)       \
    ROW("none: subnet broadcast that is a unicast address elsewhere",         \
        NONE(TO_MANY) && e->named.subnet && !e->named.net &&                  \
            e->named.destination >> 24 != 10)                                 \
    ROW("none: domain broadcast",                                             \
        NONE(TO_MANY) && e->named.destination >> 24 == 10 &&                  \
            e->named.destination % 256 == 255)                                \
    ROW("none: multicast", NONE(TO_MANY) && e->named.multicast)               \
    ROW("none: echo drop", NONE(DROPPED))                                     \
    ROW("none: the arrival port's MTU", NONE(SMALL_MTU))                      \
    ROW("none: the arrival port's MTU, by one octet",                         \
        NONE(SMALL_MTU) && e->mtu + 1 == e->fixed)

#define ECHO_SENT_LIST(ROW)                                                   \
    ROW("sent: by the second mission", SENT && v->mission == 1)               \
    ROW("sent: by a host", SENT && !v->router)                                \
    ROW("sent: for the arrival port's address",                               \
        SENT && e->named.destination == v->ports[e->arrival].address)         \
    ROW("sent: for another port's address",                                   \
        SENT && e->named.own &&                                               \
            e->named.destination != v->ports[e->arrival].address)             \
    ROW("sent: by intermediate delivery",                                     \
        SENT && !e->named.own && CAME.intermediate)                           \
    ROW("sent: by intermediate delivery, the other mission's address",        \
        SENT && !e->named.own && e->named.not_ours)                           \
    ROW("sent: for a port's address that is a broadcast of ours too",         \
        SENT && e->named.own && view_ours(&e->named))                         \
    ROW("sent: by the arrival port", SENT && (e->took >> e->arrival & 1))     \
    ROW("sent: by another port", SENT && !(e->took >> e->arrival & 1))        \
    ROW("sent: four octets", SENT && CAME.extended)                           \
    ROW("sent: one octet", SENT && !CAME.extended && !e->widened)             \
    ROW("sent: widened", SENT && e->widened && !e->checked)                   \
    ROW("sent: checksum added", SENT && !e->widened && e->checked)            \
    ROW("sent: widened, and checksum added",                                  \
        SENT && e->widened && e->checked)                                     \
    ROW("sent: capabilities 2, nothing added",                                \
        SENT && e->to->capabilities == 2)                                     \
    ROW("sent: capabilities 4", SENT && e->to->capabilities == 4)             \
    ROW("sent: hop count 0", SENT && CAME.hop_count == 0)                     \
    ROW("sent: hop count 1", SENT && CAME.hop_count == 1)                     \
    ROW("sent: hop count 255", SENT && CAME.hop_count == 255)                 \
    ROW("sent: no timestamp", SENT && CAME.stamp_format == 0)                 \
    ROW("sent: timestamp, implicit P-field", SENT && CAME.stamp_format == 1)  \
    ROW("sent: timestamp, explicit P-field", SENT && CAME.stamp_format == 2)  \
    ROW("sent: timestamp, binary", SENT && CAME.stamp_format == 3)            \
    ROW("sent: timestamp of eight octets",                                    \
        SENT && CAME.stamp_format == 2 && CAME.p_field % 16 == 15)            \
    ROW("sent: basic QOS", SENT && CAME.has_qos)                              \
    ROW("sent: no basic QOS", SENT && !CAME.has_qos)                          \
    ROW("sent: expanded QOS came", SENT && CAME.has_expanded)                 \
    ROW("sent: a header checksum came", SENT && CAME.has_checksum)            \
    ROW("sent: a control field longer than it need be",                       \
        SENT && CAME.control > CAME.shortest)                                 \
    ROW("sent: octets beyond the length", SENT && e->lent > CAME.length)      \
    ROW("sent: no data", SENT && e->data == 0)                                \
    ROW("sent: of odd length", SENT && e->size % 2 == 1)                      \
    ROW("sent: whole, of the arrival port's MTU",                             \
        WHOLE && e->made == e->mtu)                                           \
    ROW("sent: cut by one octet, by the arrival port's MTU",                  \
        CUT && e->made == e->mtu && e->made + 1 == e->fixed + e->data)        \
    ROW("sent: cut to no data", CUT && e->made == e->fixed)                   \
    ROW("sent: whole, 8,141 octets of user data",                             \
        WHOLE && e->data == 8115)                                             \
    ROW("sent: cut by one octet, by 8,141 octets",                            \
        CUT && e->made < e->mtu && e->data == 8116)                           \
    ROW("sent: of the length of its port's MTU",                              \
        SENT && e->size == e->to_mtu)                                         \
    ROW("sent: of the room's length, lengthened",                             \
        SENT && e->size == e->room && e->size > e->made)                      \
    ROW("sent: the 32nd entry",                                               \
        SENT && view_now(v)->waits[e->to->port % VIEW_PORTS] ==               \
                    VIEW_QUEUE - 1)                                           \
    ROW("11", e->onward == 11)                                                \
    ROW("11, the other mission has a route", e->onward == 11 && e->others)    \
    ROW("14, by its port's MTU", e->onward == 14 && e->size <= e->room)       \
    ROW("14, by its port's MTU, by one octet",                                \
        e->onward == 14 && e->size <= e->room &&                              \
            e->size == e->to_mtu + 1)                                         \
    ROW("14, by the room alone",                                              \
        e->onward == 14 && e->size > e->room && e->size <= e->to_mtu)         \
    ROW("14, by the room alone, by one octet",                                \
        e->onward == 14 && e->size == e->room + 1 && e->size <= e->to_mtu)    \
    ROW("15", e->onward == 15)

#endif
