/*
 * relay_lists.h: what coverage counts of the relay's calls. Each row is a name
 * and a condition over one answered line; the line counts for the row where it
 * holds. `r` is a receipt, `s` a setting, `f` a search, `route` a record, `v`
 * the view before it.
 */
#ifndef COVERAGE_RELAY_LISTS_H
#define COVERAGE_RELAY_LISTS_H

#include "view.h"

/* The elements that a route may ask for, a set. Each has as many octets as its
 * number says. */
enum { HOP_COUNT = 1, CHECKSUM = 2 };

struct receipt {
    uint32_t arrival, room, second, refusal, local, onward, took;
    size_t lent;
    bool flooded;
    const struct view_pair *pair; /* a flood's, held or freed; null if new */
    struct arriving datagram;
    struct naming named;
    const char *line; /* of the onward half: what decided the wanted ports */
    uint32_t wanted;  /* the ports that the rules want, before any is struck */
    uint32_t there;   /* of the elements, those that came */
    uint32_t added;   /* and those that a route adds */
    uint32_t foreign; /* ports of another domain than one-octet addresses' */
    uint32_t small;   /* ports for which the copy is too big */
    uint32_t full;    /* ports on which 32 entries wait */
    uint32_t headers[VIEW_PORTS]; /* octets of the header for each port */
    uint32_t sizes[VIEW_PORTS];   /* and of the whole copy */
};

/* A setting: its number, and its arguments as numbers, in their order. */
struct asked {
    uint32_t number;
    uint32_t n[CALL_MOST_NUMBERS];
};

/* A search: its answer, and what the view has of the mission's routes. */
struct sought {
    bool refused, found;
    uint32_t place, ones;
    struct view_route route; /* at the place found */
    struct list_found at;
    uint32_t matching;       /* places that match the address and are up */
    uint32_t as_long;        /* other places with as many ones as that */
    uint32_t filled;         /* places */
};

/* The route and the group that were found; an empty one where none was, which
 * an answer that is wrong may come to. */
static inline const struct view_route *route_of(const struct receipt *r)
{
    static const struct view_route none;

    return r->named.found.route != NULL ? r->named.found.route : &none;
}

/* The availability of a longer route that was passed over; 0 for none. */
static inline uint32_t over_of(const struct list_found *found)
{
    return found->over != NULL ? found->over->availability : 0;
}

/* Whether a longer one was refused, by whatever. */
static inline bool refused_of(const struct list_found *found)
{
    return found->refused[21] || found->refused[22] || found->refused[24] ||
           found->by_port;
}

static inline uint32_t route_port(const struct receipt *r)
{
    return route_of(r)->port % VIEW_PORTS;
}

static inline uint32_t route_mtu(const struct view *v, const struct receipt *r)
{
    return v->ports[route_port(r)].mtu;
}

static inline uint32_t route_size(const struct receipt *r)
{
    return r->sizes[route_port(r)];
}

/* The ports that took a copy with a rewritten header, and with one that was
 * kept. */
static inline uint32_t rewritten(const struct receipt *r)
{
    return r->added != 0 ? r->took : r->took & r->foreign;
}

static inline uint32_t kept(const struct receipt *r)
{
    return r->took & ~rewritten(r);
}

/* Octets of the rewritten header; 0 where there is none. */
static inline uint32_t rewritten_octets(const struct receipt *r)
{
    uint32_t port = 0;

    while (port < VIEW_PORTS && (rewritten(r) >> port & 1) == 0)
        port++;
    return port < VIEW_PORTS ? r->headers[port] : 0;
}

static inline const struct view_group *group_of(const struct receipt *r)
{
    static const struct view_group none;

    return r->named.group != NULL ? r->named.group : &none;
}

/* Whose port it is that is set up. */
static inline uint32_t port_of(const struct view *v, uint32_t port)
{
    return v->missions[1].ports >> port % VIEW_PORTS & 1;
}

static inline bool set_up_port(const struct view *v, uint32_t port)
{
    return port < VIEW_PORTS && (view_set_up(v) >> port & 1) != 0;
}

#define REFUSED_RECEIPT_LIST(ROW)                                             \
    ROW("1, no octets", r->refusal == 1 && r->lent == 0)                      \
    ROW("6, path", r->refusal == 6 && r->named.by_path)                       \
    ROW("6, end system", r->refusal == 6 && !r->named.by_path)                \
    ROW("6, source of a good destination",                                    \
        r->refusal == 6 && (r->named.found.route || r->named.own))            \
    ROW("6, one octet", r->refusal == 6 && !r->datagram.extended)             \
    ROW("7, path", r->refusal == 7 && r->named.by_path)                       \
    ROW("7, end system", r->refusal == 7 && !r->named.by_path)                \
    ROW("8, routing requirements 1",                                          \
        r->refusal == 8 && r->datagram.routing == 1)                          \
    ROW("8, routing requirements 2",                                          \
        r->refusal == 8 && r->datagram.routing == 2)                          \
    ROW("8, IPv6", r->refusal == 8 && r->datagram.ipv6)                       \
    ROW("16, port over 7", r->refusal == 16 && r->arrival >= VIEW_PORTS)      \
    ROW("16, port not set up", r->refusal == 16 && r->arrival < VIEW_PORTS && \
                                   !set_up_port(v, r->arrival))               \
    ROW("16, the other mission's port",                                       \
        r->refusal == 16 && set_up_port(v, r->arrival))                       \
    ROW("16 before 17", r->refusal == 16 && r->room < 400)                    \
    ROW("17, room 0", r->refusal == 17 && r->room == 0)                       \
    ROW("17, room 50", r->refusal == 17 && r->room == 50)                     \
    ROW("17, room 399", r->refusal == 17 && r->room == 399)                   \
    ROW("21, 513 records", r->refusal == 21 && v->places == 513)              \
    ROW("21 before 16",                                                       \
        r->refusal == 21 && (r->arrival >= VIEW_PORTS ||                      \
                             (view_own(v) >> r->arrival & 1) == 0))           \
    ROW("21 before 17", r->refusal == 21 && r->room < 400)                    \
    ROW("8, IPv6, flooded",                                                   \
        r->refusal == 8 && r->datagram.ipv6 && r->flooded)                    \
    ROW("6 before 28",                                                        \
        r->refusal == 6 && r->flooded &&                                      \
            (r->named.by_path || r->datagram.stamp_format == 0))              \
    ROW("28, no source, a timestamp",                                         \
        r->refusal == 28 && r->named.by_path && r->datagram.stamp_format)     \
    ROW("28, no timestamp, a source",                                         \
        r->refusal == 28 && !r->named.by_path)                                \
    ROW("28, neither",                                                        \
        r->refusal == 28 && r->named.by_path && !r->datagram.stamp_format)    \
    ROW("28, one octet", r->refusal == 28 && !r->datagram.extended)           \
    ROW("28, on a host", r->refusal == 28 && !v->router)

/* The reasons to deliver, and that the datagram is delivered. */
#define DELIVERED (r->local == 1)
#define HERE(r) ((r)->named.path != NULL && (r)->named.path->here)
#define REASON(r)                                                             \
    ((r)->named.own || (r)->named.limited || view_ours(&(r)->named) ||        \
     (r)->named.subscribed || HERE(r))

#define LOCAL_LIST(ROW)                                                       \
    ROW("no", r->local == 0)                                                  \
    ROW("no, an address or broadcast of the other mission's port",            \
        r->local == 0 && r->named.not_ours)                                   \
    ROW("delivered, a port's address", DELIVERED && r->named.own)             \
    ROW("delivered, the address of another port",                             \
        DELIVERED && r->named.own &&                                          \
            r->named.destination != v->ports[r->arrival].address)             \
    ROW("delivered, limited broadcast", DELIVERED && r->named.limited)        \
    ROW("delivered, net broadcast of a port", DELIVERED && r->named.net)      \
    ROW("delivered, subnet broadcast of a port",                              \
        DELIVERED && r->named.subnet && !r->named.net)                        \
    ROW("delivered, broadcast of all SCPS", DELIVERED && r->named.all_scps)   \
    ROW("delivered, subscribed", DELIVERED && r->named.subscribed)            \
    ROW("delivered, path place", DELIVERED && HERE(r))                        \
    ROW("delivered, intermediate delivery alone",                             \
        DELIVERED && !REASON(r) && r->datagram.intermediate)                  \
    ROW("delivered, intermediate delivery and another reason",                \
        DELIVERED && REASON(r) && r->datagram.intermediate)                   \
    ROW("26, a port's address", r->local == 26 && r->named.own)               \
    ROW("26, a broadcast", r->local == 26 && view_ours(&r->named))            \
    ROW("26, subscribed", r->local == 26 && r->named.subscribed)              \
    ROW("26, path place", r->local == 26 && HERE(r))                          \
    ROW("26, intermediate delivery alone", r->local == 26 && !REASON(r))      \
    ROW("26, TP-ID 0", r->local == 26 && r->datagram.tp_id == 0)              \
    ROW("no, and unknown TP-ID",                                              \
        r->local == 0 && r->datagram.tp_id == 0 && r->onward == 1)            \
    ROW("a path that has a port's number, not delivered for it",              \
        r->named.by_path && r->local == 0 &&                                  \
            r->named.destination == v->ports[r->arrival].address)

/* By the line that decided, with its ends. */
#define BY(name) (strcmp(r->line, name) == 0)
#define WANTED_LIST(ROW)                                                      \
    ROW("a port's address: not asked", BY("own") && r->named.own)             \
    ROW("limited broadcast: not asked", BY("own") && r->named.limited)        \
    ROW("a port's address that is a broadcast of ours too",                   \
        BY("own") && view_ours(&r->named))                                    \
    ROW("host: not asked", BY("host") && r->onward == 0)                      \
    ROW("host: 9", BY("host") && r->onward == 9)                              \
    ROW("broadcast of ours: sent on", BY("broadcast") && r->onward == 1)      \
    ROW("broadcast of ours: not asked, no other port",                        \
        BY("broadcast") && r->onward == 0)                                    \
    ROW("multicast: sent on", BY("multicast") && r->onward == 1)              \
    ROW("multicast: sent on to two ports or more",                            \
        BY("multicast") && (r->took & (r->took - 1)) != 0)                    \
    ROW("multicast: sent on, the arrival port in the set",                    \
        BY("multicast") && r->onward == 1 &&                                  \
            (group_of(r)->send >> r->arrival & 1) != 0)                       \
    ROW("multicast: not asked, subscribed and no other port",                 \
        BY("multicast") && r->onward == 0)                                    \
    ROW("multicast: 11, no group",                                            \
        BY("multicast") && r->onward == 11 && r->named.group == NULL)         \
    ROW("multicast: 11, the set empty",                                       \
        BY("multicast") && r->onward == 11 && r->named.group != NULL)         \
    ROW("multicast: 11, subscribed",                                          \
        BY("multicast") && r->onward == 11 && r->named.subscribed)            \
    ROW("path: sent on", BY("path") && r->onward == 1)                        \
    ROW("path: 11, no place",                                                 \
        BY("path") && r->onward == 11 && r->named.path == NULL)               \
    ROW("path: 11, the set empty and not delivered here",                     \
        BY("path") && r->onward == 11 && r->named.path != NULL)               \
    ROW("path: not asked, the set empty and delivered here",                  \
        BY("path") && r->onward == 0)                                         \
    ROW("route: sent on", BY("route") && r->onward == 1)                      \
    ROW("route: sent on by the arrival port",                                 \
        BY("route") && (r->took >> r->arrival & 1) != 0)                      \
    ROW("route: sent on by the default route",                                \
        BY("route") && r->onward == 1 && route_of(r)->mask == 0)              \
    ROW("route: sent on by a route of 32 ones",                               \
        BY("route") && r->onward == 1 &&                                      \
            route_of(r)->mask == 0xffffffff)                                  \
    ROW("route: 11, none matches",                                            \
        BY("route") && r->onward == 11 && over_of(&r->named.found) == 0)      \
    ROW("route: sent on, a longer one is down",                               \
        BY("route") && r->onward == 1 && over_of(&r->named.found) == 2)       \
    ROW("route: sent on, a longer one is testing",                            \
        BY("route") && r->onward == 1 && over_of(&r->named.found) == 3)       \
    ROW("route: sent on, a longer one is out",                                \
        BY("route") && r->onward == 1 && over_of(&r->named.found) == 4)       \
    ROW("route: sent on by the default route, a longer one is not up",        \
        BY("route") && r->onward == 1 && route_of(r)->mask == 0 &&            \
            over_of(&r->named.found) != 0)                                    \
    ROW("route: 11, one matches and is down",                                 \
        BY("route") && r->onward == 11 && over_of(&r->named.found) == 2)      \
    ROW("route: 11, one matches and is testing",                              \
        BY("route") && r->onward == 11 && over_of(&r->named.found) == 3)      \
    ROW("route: 11, one matches and is out",                                  \
        BY("route") && r->onward == 11 && over_of(&r->named.found) == 4)      \
    ROW("route: a broadcast that is not ours",                                \
        BY("route") && r->onward == 1 && r->named.destination % 256 == 255)   \
    ROW("route: sent on, a longer one is refused",                            \
        BY("route") && r->onward == 1 && refused_of(&r->named.found))         \
    ROW("route: sent on, a longer one is hidden by a lower place",            \
        BY("route") && r->onward == 1 && r->named.found.hidden)               \
    ROW("route: sent on, a longer one is the other mission's",                \
        BY("route") && r->onward == 1 && r->named.found.others)               \
    ROW("route: 11, the other mission has one",                               \
        BY("route") && r->onward == 11 && r->named.found.others)              \
    ROW("route: 11, one is refused",                                          \
        BY("route") && r->onward == 11 && refused_of(&r->named.found))        \
    ROW("route: sent on, the second mission's",                               \
        BY("route") && r->onward == 1 && v->mission == 1)

#define COPIES_LIST(ROW)                                                      \
    ROW("10, hop count 0", r->onward == 10 && r->datagram.hop_count == 0)     \
    ROW("10, hop count 1", r->onward == 10 && r->datagram.hop_count == 1)     \
    ROW("sent on, hop count 2",                                               \
        r->onward == 1 && r->datagram.hop_count == 2)                         \
    ROW("sent on, no hop count",                                              \
        r->onward == 1 && !r->datagram.has_hop_count)                         \
    ROW("sent on, one octet", r->onward == 1 && !r->datagram.extended)        \
    ROW("13, path", r->onward == 13 && BY("path"))                            \
    ROW("path, a port struck out by its domain, another took it",             \
        BY("path") && r->onward == 1 && (r->wanted & r->foreign) != 0)        \
    ROW("14, broadcast of ours", r->onward == 14 && BY("broadcast"))          \
    ROW("14, multicast", r->onward == 14 && BY("multicast"))                  \
    ROW("14, path", r->onward == 14 && BY("path"))                            \
    ROW("14, route", r->onward == 14 && BY("route"))                          \
    ROW("14, one octet over the MTU",                                         \
        r->onward == 14 && BY("route") &&                                     \
            route_mtu(v, r) + 1 == route_size(r))                             \
    ROW("14, length 8,191",                                                   \
        r->onward == 14 && r->datagram.length == 8191)                        \
    ROW("sent on, of the MTU's length",                                       \
        r->onward == 1 && BY("route") && route_mtu(v, r) == route_size(r))    \
    ROW("sent on, length 8,191",                                              \
        r->onward == 1 && r->datagram.length == 8191)                         \
    ROW("sent on, a port struck out by its MTU",                              \
        r->onward == 1 &&                                                     \
            (r->wanted & r->small & ~r->took) != 0)                           \
    ROW("15, one copy",                                                       \
        r->onward == 15 && (r->wanted & (r->wanted - 1)) == 0)                \
    ROW("15, two copies or more",                                             \
        r->onward == 15 && (r->wanted & (r->wanted - 1)) != 0)                \
    ROW("sent on, another port full",                                         \
        r->onward == 1 &&                                                     \
            (r->wanted & r->full & ~r->small) != 0)                           \
    ROW("the 32nd entry taken", fills(v, r->took))                            \
    ROW("delivered, and sent on", r->local == 1 && r->onward == 1)            \
    ROW("delivered, and 15", r->local == 1 && r->onward == 15)                \
    ROW("26, and sent on", r->local == 26 && r->onward == 1)                  \
    ROW("no, and sent on", r->local == 0 && r->onward == 1)

/* Sent on by a route of these capabilities, with these elements there. */
#define ROUTED(code, set)                                                     \
    (BY("route") && r->onward == 1 && route_of(r)->capabilities == (code) &&  \
     r->there == (set))
#define CAPABLE_ROWS(ROW, code)                                               \
    ROW("capabilities " #code ", neither element there", ROUTED(code, 0))     \
    ROW("capabilities " #code ", hop count there", ROUTED(code, HOP_COUNT))   \
    ROW("capabilities " #code ", checksum there", ROUTED(code, CHECKSUM))     \
    ROW("capabilities " #code ", both there",                                 \
        ROUTED(code, HOP_COUNT | CHECKSUM))                                   \
    ROW("capabilities " #code ", addresses widened",                          \
        BY("route") && (r->took & r->foreign) != 0 &&                         \
            route_of(r)->capabilities == (code))

/* At the edge of what a port or the length field takes, once rewritten. */
#define GROWN_TO(size)                                                        \
    (BY("route") && route_size(r) == (size) && r->datagram.length < (size))

#define REWRITTEN_LIST(ROW)                                                   \
    CAPABLE_ROWS(ROW, 0)                                                      \
    CAPABLE_ROWS(ROW, 1)                                                      \
    CAPABLE_ROWS(ROW, 2)                                                      \
    CAPABLE_ROWS(ROW, 4)                                                      \
    ROW("an element added by a route to the arrival port",                    \
        r->added != 0 && (r->took >> r->arrival & 1) != 0)                    \
    ROW("an element added, addresses of one octet",                           \
        r->added != 0 && r->took != 0 && !r->datagram.extended &&             \
            (r->took & r->foreign) == 0)                                      \
    ROW("none added to a broadcast of ours that a route asks it for",         \
        BY("broadcast") && r->onward == 1 && r->there == 0 &&                 \
            route_of(r)->capabilities == 4)                                   \
    ROW("none added to a multicast that a route asks it for",                 \
        BY("multicast") && r->onward == 1 && r->there == 0 &&                 \
            route_of(r)->capabilities == 4)                                   \
    ROW("widened, broadcast of ours", BY("broadcast") && rewritten(r) != 0)   \
    ROW("widened, multicast", BY("multicast") && rewritten(r) != 0)           \
    ROW("kept and widened at once, broadcast of ours",                        \
        BY("broadcast") && rewritten(r) != 0 && kept(r) != 0)                 \
    ROW("kept and widened at once, multicast",                                \
        BY("multicast") && rewritten(r) != 0 && kept(r) != 0)                 \
    ROW("kept, another struck out by its size once widened",                  \
        kept(r) != 0 && (r->wanted & r->foreign & r->small) != 0)             \
    ROW("kept, control field longer than it need be",                         \
        kept(r) != 0 && r->datagram.control > r->datagram.shortest)           \
    ROW("rewritten, control field longer than it need be",                    \
        rewritten(r) != 0 && r->datagram.control > r->datagram.shortest)      \
    ROW("rewritten, control field of 2 octets",                               \
        rewritten(r) != 0 && r->datagram.shortest == 2)                       \
    ROW("rewritten, control field of 3 octets",                               \
        rewritten(r) != 0 && r->datagram.shortest == 3)                       \
    ROW("rewritten, hop count 2 there",                                       \
        rewritten(r) != 0 && r->datagram.hop_count == 2)                      \
    ROW("rewritten, checksum there",                                          \
        rewritten(r) != 0 && r->datagram.has_checksum)                        \
    ROW("rewritten, checksum in a header of odd length",                      \
        rewritten(r) != 0 && rewritten_octets(r) % 2 == 1 &&                  \
            ((r->there | r->added) & CHECKSUM) != 0)                          \
    ROW("rewritten, basic QOS", rewritten(r) != 0 && r->datagram.has_qos)     \
    ROW("rewritten, timestamp, implicit P-field",                             \
        rewritten(r) != 0 && r->datagram.stamp_format == 1)                   \
    ROW("rewritten, timestamp, explicit P-field",                             \
        rewritten(r) != 0 && r->datagram.stamp_format == 2)                   \
    ROW("rewritten, timestamp, binary",                                       \
        rewritten(r) != 0 && r->datagram.stamp_format == 3)                   \
    ROW("rewritten, expanded QOS",                                            \
        rewritten(r) != 0 && r->datagram.has_expanded)                        \
    ROW("rewritten, intermediate delivery",                                   \
        rewritten(r) != 0 && r->datagram.intermediate)                        \
    ROW("rewritten, octets beyond the length",                                \
        rewritten(r) != 0 && r->lent > r->datagram.length)                    \
    ROW("rewritten, data over 8,141 octets",                                  \
        rewritten(r) != 0 && r->datagram.length - r->datagram.header > 8141)  \
    ROW("sent on, one under the MTU once rewritten",                          \
        r->onward == 1 && GROWN_TO(route_mtu(v, r) - 1))                      \
    ROW("sent on, of the MTU's length once rewritten",                        \
        r->onward == 1 && GROWN_TO(route_mtu(v, r)))                          \
    ROW("14, one over the MTU once rewritten",                                \
        r->onward == 14 && GROWN_TO(route_mtu(v, r) + 1))                     \
    ROW("sent on, 8,191 once rewritten", r->onward == 1 && GROWN_TO(8191))    \
    ROW("14, 8,192 once rewritten",                                           \
        r->onward == 14 && GROWN_TO(8192) && route_mtu(v, r) == 8191)         \
    ROW("10 before 14, once rewritten",                                       \
        r->onward == 10 && BY("route") && (r->wanted & r->small) != 0)        \
    ROW("15, the copy would be rewritten",                                    \
        r->onward == 15 && (r->wanted & r->foreign) != 0)

#define PORT_LIST(ROW)                                                        \
    ROW("set_port: 0, for mission 0", s->number == 0 && s->n[4] == 0)         \
    ROW("set_port: 0, for mission 1", s->number == 0 && s->n[4] == 1)         \
    ROW("set_port: 35, its own mission's",                                    \
        s->number == 35 && port_of(v, s->n[0]) == s->n[4])                    \
    ROW("set_port: 35, the other's",                                          \
        s->number == 35 && port_of(v, s->n[0]) != s->n[4])                    \
    ROW("set_port: 24 before 35",                                             \
        s->number == 24 && set_up_port(v, s->n[0]))                           \
    ROW("set_port: 22, net 10 without 24 ones",                               \
        s->number == 22 && s->n[1] >> 24 == 10)                               \
    ROW("set_port: 22, host bits all ones",                                   \
        s->number == 22 && s->n[2] == 0xffffff00 && s->n[1] % 256 == 255)     \
    ROW("set_port: 24, MTU 0", s->number == 24 && s->n[3] == 0)               \
    ROW("set_port: 24, MTU 8,192", s->number == 24 && s->n[3] == 8192)        \
    ROW("set_port: 0, MTU 1", s->number == 0 && s->n[3] == 1)                 \
    ROW("set_port: 0, MTU 8,191", s->number == 0 && s->n[3] == 8191)          \
    ROW("set_port: 25 before 22",                                             \
        s->number == 25 && (~s->n[2] & (~s->n[2] + 1)) != 0)                  \
    ROW("set_port: 25 before 24", s->number == 25 && s->n[3] == 0)

#define ROUTE_LIST(ROW)                                                       \
    ROW("set_route: 0, over what stood there",                                \
        s->number == 0 && v->routes[s->n[0]].filled != 0)                     \
    ROW("set_route: 0, place 511", s->number == 0 && s->n[0] == 511)          \
    ROW("set_route: 0, in a shorter list",                                    \
        s->number == 0 && v->places < TRACE_RECORDS)                          \
    ROW("set_route: 21, place 512 of 512",                                    \
        s->number == 21 && s->n[0] == 512 && v->places == 512)                \
    ROW("set_route: 21, beyond the end of a shorter list",                    \
        s->number == 21 && s->n[0] == v->places && v->places < 512)           \
    ROW("set_route: 21, a list over 512",                                     \
        s->number == 21 && v->places > TRACE_RECORDS)                         \
    ROW("set_route: 21, port 8", s->number == 21 && s->n[3] == 8)             \
    ROW("set_route: 21, port not set up",                                     \
        s->number == 21 && s->n[0] < v->places && v->places <= 512 &&         \
            s->n[3] < 8)                                                      \
    ROW("set_route: 24, the other mission's port",                            \
        s->number == 24 && set_up_port(v, s->n[3]) &&                         \
            port_of(v, s->n[3]) != s->n[6])                                   \
    ROW("set_route: 0, the other mission has the same prefix and mask",       \
        s->number == 0 && unlike_route(v, s, true))                           \
    ROW("set_route: 0, the same entry elsewhere is refused",                  \
        s->number == 0 && unlike_route(v, s, false))                          \
    ROW("set_route: 22, prefix",                                              \
        s->number == 22 && (~s->n[2] & (~s->n[2] + 1)) == 0)                  \
    ROW("set_route: 22, mask",                                                \
        s->number == 22 && (~s->n[2] & (~s->n[2] + 1)) != 0)                  \
    ROW("set_route: 24, availability 0", s->number == 24 && s->n[4] == 0)     \
    ROW("set_route: 24, availability 5", s->number == 24 && s->n[4] == 5)     \
    ROW("set_route: 24, capabilities 3", s->number == 24 && s->n[5] == 3)     \
    ROW("set_route: 24 before 23",                                            \
        s->number == 24 && same_route(v, s) != 0)                             \
    ROW("set_route: 23, the other one is not up",                             \
        s->number == 23 && same_route(v, s) > 1)                              \
    ROW("set_route: 0, capabilities 4", s->number == 0 && s->n[5] == 4)

#define SEARCH_LIST(ROW)                                                      \
    ROW("search: found", f->found)                                            \
    ROW("search: found, for mission 1", f->found && v->mission == 1)          \
    ROW("search: found, on a host", f->found && !v->router)                   \
    ROW("search: found, of 0 ones", f->found && f->ones == 0)                 \
    ROW("search: found, of 32 ones", f->found && f->ones == 32)               \
    ROW("search: found, at place 511", f->found && f->place == 511)           \
    ROW("search: found, in a shorter list",                                   \
        f->found && v->places < TRACE_RECORDS)                                \
    ROW("search: found, and a shorter one matches",                           \
        f->found && f->matching > 1)                                          \
    ROW("search: found, and another has as many ones",                        \
        f->found && f->as_long > 0)                                           \
    ROW("search: found, a longer one is down",                                \
        f->found && over_of(&f->at) == 2)                                     \
    ROW("search: found, a longer one is testing",                             \
        f->found && over_of(&f->at) == 3)                                     \
    ROW("search: found, a longer one is out",                                 \
        f->found && over_of(&f->at) == 4)                                     \
    ROW("search: found, of 0 ones, a longer one is not up",                   \
        f->found && f->ones == 0 && over_of(&f->at) != 0)                     \
    ROW("search: found, filled by another number than 1",                     \
        f->found && f->route.filled > 1)                                      \
    ROW("search: found, the same entry at a higher place",                    \
        f->found && f->at.doubled)                                            \
    ROW("search: found, a longer one is hidden by a lower place",             \
        f->found && f->at.hidden)                                             \
    ROW("search: found, a longer one is the other mission's",                 \
        f->found && f->at.others)                                             \
    ROW("search: found, a longer one is refused by 21",                       \
        f->found && f->at.refused[21])                                        \
    ROW("search: found, a longer one is refused by 22",                       \
        f->found && f->at.refused[22])                                        \
    ROW("search: found, a longer one is refused by 24",                       \
        f->found && f->at.refused[24])                                        \
    ROW("search: found, a longer one has the other's port",                   \
        f->found && f->at.by_port)                                            \
    ROW("search: none", !f->found && !f->refused)                             \
    ROW("search: none, where there are routes", !f->found && f->filled > 0)   \
    ROW("search: none, one matches and is down",                              \
        !f->found && over_of(&f->at) == 2)                                    \
    ROW("search: none, one matches and is testing",                           \
        !f->found && over_of(&f->at) == 3)                                    \
    ROW("search: none, one matches and is out",                               \
        !f->found && over_of(&f->at) == 4)                                    \
    ROW("search: none, the other mission has one", !f->found && f->at.others) \
    ROW("search: none, one is refused", !f->found && refused_of(&f->at))      \
    ROW("search: none, one is hidden by a lower place",                       \
        !f->found && f->at.hidden)                                            \
    ROW("search: 21, a list over 512", f->refused)

#define RECORD_LIST(ROW)                                                      \
    ROW("record: empty, whatever else it holds",                              \
        route.filled == 0 && route.mask != 0)                                 \
    ROW("record: filled by another number than 1",                            \
        route.filled > 1 && refusal == 0)                                     \
    ROW("record: good", route.filled == 1 && refusal == 0)                    \
    ROW("record: refused by 21, port not set up",                             \
        route.filled != 0 && refusal == 21 && route.port < VIEW_PORTS)        \
    ROW("record: refused by 21, port over 7",                                 \
        route.filled != 0 && refusal == 21 && route.port >= VIEW_PORTS)       \
    ROW("record: refused by 22", route.filled != 0 && refusal == 22)          \
    ROW("record: refused by 24", route.filled != 0 && refusal == 24)          \
    ROW("record: refused by 24, the other's port",                            \
        route.filled != 0 && refusal == 24 && route.availability - 1 < 4 &&   \
            route.capabilities != 3 && route.capabilities < 5)                \
    ROW("record: the same entry at a lower place",                            \
        route.filled != 0 && refusal == 0 && list_holder(v, &route) < n[1])   \
    ROW("record: the same entry at a higher place",                           \
        route.filled != 0 && refusal == 0 &&                                  \
            list_holder(v, &route) < v->places &&                             \
            list_holder(v, &route) > n[1])                                    \
    ROW("record: beyond the list's end", n[1] >= v->places)

#define ENTRY_LIST(ROW)                                                       \
    ROW("set_group, set_path: 21, place 16",                                  \
        s->number == 21 && s->n[0] == 16)                                     \
    ROW("set_group, set_path: 21, a port over 7",                             \
        s->number == 21 && s->n[2] > 255)                                     \
    ROW("set_group, set_path: 21, a port not set up",                         \
        s->number == 21 && s->n[2] < 256 &&                                   \
            (s->n[2] & ~view_set_up(v)) != 0)                                 \
    ROW("set_group, set_path: 21, the other mission's port",                  \
        s->number == 21 && s->n[0] < 16 && s->n[2] < 256 &&                   \
            (s->n[2] & ~view_set_up(v)) == 0 &&                               \
            (s->n[2] & ~view_own(v)) != 0)                                    \
    ROW("set_group, set_path: 0, an empty set",                               \
        s->number == 0 && s->n[2] == 0)

#endif
