/*
 * view.h: the relay as an answered trace shows it: the settings that were
 * taken, the list as it stands, how many entries of each mission wait on each
 * port, its last second and the pairs that it keeps. It believes every answer;
 * what it is for is to say which line of the rules a datagram came to.
 */
#ifndef VIEW_H
#define VIEW_H

#include <stdbool.h>
#include <stdint.h>

#include "shared/arriving.h"
#include "shared/trace.h"

#define VIEW_PORTS 8
#define VIEW_GROUPS 16
#define VIEW_PATHS 16
#define VIEW_QUEUE 32
#define VIEW_PAIRS 64
/* Pairs that a mission ever kept in a history; further ones are not seen. */
#define VIEW_KEPT 512

struct view_port {
    uint32_t address, mask, mtu;
};

struct view_route {
    uint32_t filled, prefix, mask, port, availability, capabilities, mission;
};

struct view_group {
    bool filled;
    uint32_t address, send, subscribed;
};

struct view_path {
    bool filled;
    uint32_t path, send, here;
};

/* A pair, once kept. */
struct view_pair {
    uint32_t source, format, p_field;
    uint64_t time;
    bool held;     /* else it was freed */
    bool extended; /* the datagram that it was kept of, so below */
    uint32_t second;
};

/* What is a mission's own. */
struct view_mission {
    uint32_t ports; /* a set */
    uint32_t waits[VIEW_PORTS];
    struct view_group groups[VIEW_GROUPS];
    struct view_path paths[VIEW_PATHS];
    uint32_t last_second;
    struct view_pair pairs[VIEW_KEPT];
    uint32_t kept; /* how many of these there are */
};

struct view {
    uint32_t router;
    uint32_t lifetime;
    uint32_t echo_drop;
    struct view_port ports[VIEW_PORTS];
    struct view_mission missions[TRACE_MISSIONS];
    uint32_t mission; /* whose call is looked at */
    struct view_route routes[TRACE_MOST_RECORDS];
    uint32_t places; /* of the list */
};

static inline const struct view_mission *view_now(const struct view *view)
{
    return &view->missions[view->mission];
}

/* The ports of that mission, and those of both. */
static inline uint32_t view_own(const struct view *view)
{
    return view_now(view)->ports;
}

static inline uint32_t view_set_up(const struct view *view)
{
    return view->missions[0].ports | view->missions[1].ports;
}

/* Notes whose call it is. */
void view_begin(struct view *view, enum call of,
                const struct trace_call *call);

/* Notes what the call did by its answer. */
void view_note(struct view *view, enum call of, const struct trace_call *call,
               const struct trace_call *answer);

/* What an address finds in the list, for the mission. */
struct list_found {
    const struct view_route *route;  /* the longest that counts and is up, or
                                        null */
    const struct view_route *over;   /* a longer one that counts and is not up,
                                        or null */
    /* Whether a longer one matches that does not count, or not for it: */
    bool refused[CALL_NUMBERS]; /* by this number, its port no other's */
    bool by_port;               /* by 24, since its port is the other's */
    bool hidden;                /* up, and a lower place holds the entry */
    bool others;                /* the other mission's, which counts */
    bool doubled;               /* the same entry at a higher place */
};

struct list_found list_find(const struct view *view, uint32_t to);

/* What refuses the record, by the ports as they are; 0 for nothing. */
uint32_t list_refusal(const struct view *view, const struct view_route *route);

/* The lowest place that holds the entry and is not refused; the list's places
 * where none does. */
uint32_t list_holder(const struct view *view, const struct view_route *route);

/* The pair of a flooded datagram, as yet kept by nobody. */
struct view_pair view_pair_of(const struct view *view, uint32_t arrival,
                              const struct arriving *datagram);

/* The mission's pair that is the same, held or freed; null where it never had
 * it. */
const struct view_pair *view_pair_find(const struct view *view,
                                       const struct view_pair *pair);

/* How many pairs the mission holds. */
uint32_t view_held(const struct view *view);

/* Whether a sweep of the mission at the second frees the pair. */
bool view_frees(const struct view *view, const struct view_pair *pair,
                uint32_t second);

/* Whether the pair of a flooded datagram was kept, by its onward half. */
bool view_keeps(uint32_t onward);

/* What a datagram that no check refused names, arriving by a port. */
struct naming {
    uint32_t destination; /* filled in where it has one octet */
    bool by_path, own, limited, net, subnet, all_scps, multicast;
    bool subscribed; /* on the arrival port */
    uint32_t others; /* the mission's ports but the arrival port */
    bool not_ours;   /* it would be, were the other's ports its own */
    const struct view_group *group; /* null where there is none, so below */
    const struct view_path *path;
    struct list_found found;
};

struct naming view_name(const struct view *view, uint32_t arrival,
                        const struct arriving *datagram);

static inline bool view_ours(const struct naming *naming)
{
    return naming->net || naming->subnet || naming->all_scps;
}

#endif
