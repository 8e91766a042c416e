/*
 * world.h: the small world that histories are drawn from, and what a history
 * has set in its relay so far. Addresses come from few networks, so that a
 * destination often meets a port, a route, a group or a path that was set.
 *
 * What was set is what was asked for: whether the relay took it is not looked
 * at, so that no answer is needed to write a history. A port is written once,
 * so a second writing of one is not noted.
 *
 * A call is drawn for one of the two missions, the one that stands in the
 * world: it names that mission's ports, groups and paths, and mostly its
 * routes.
 */
#ifndef WORLD_H
#define WORLD_H

#include <stdbool.h>
#include <stdint.h>

#include "random.h"

#define WORLD_MISSIONS 2
#define WORLD_PORTS 8
#define WORLD_ROUTES 64  /* that a history writes, at places of the list */
#define WORLD_PLACES 512 /* of a list, at most */
#define WORLD_GROUPS 16
#define WORLD_PATHS 16
#define WORLD_PAIRS 128 /* that floods are drawn from, at most */
#define WORLD_MOST_LENGTH 8191

/* What the networks of a history are. */
enum nets {
    ONE_DOMAIN, /* all ports in one domain of net 10 */
    DOMAINS,    /* domains of net 10 */
    INTERNET,   /* no net 10 */
    ALL_NETS
};

/* What a flood is known by. */
struct world_pair {
    uint32_t source;
    unsigned format; /* 1 to 3 */
    uint8_t p_field;
    uint8_t time[7]; /* as many of them as the format says */
};

struct world {
    enum nets nets;
    uint32_t mission;               /* whose calls are drawn */
    uint32_t ports_of[WORLD_MISSIONS]; /* sets of ports that are set up */
    struct {
        uint32_t address, mask, mtu;
    } ports[WORLD_PORTS];
    uint32_t places; /* of the list */
    struct world_route {
        bool filled;
        uint32_t place, prefix, mask, port, availability, capabilities,
            mission;
    } routes[WORLD_ROUTES];
    uint32_t groups[WORLD_MISSIONS][WORLD_GROUPS]; /* 0 where empty */
    uint32_t paths[WORLD_MISSIONS][WORLD_PATHS];   /* 0 where empty */
    struct world_pair pairs[WORLD_PAIRS];
    uint32_t pair_count;
    uint32_t floods; /* of 100 datagrams */
    uint32_t lifetime;
    uint32_t seconds[WORLD_MISSIONS];     /* the latest */
    uint32_t some_second[WORLD_MISSIONS]; /* an earlier one */
};

/* A world in which nothing is set, with a list of so many places. */
void world_begin(struct world *world, enum nets nets, uint32_t places,
                 struct random *random);
/* The list anew, empty, with so many places. */
void world_begin_list(struct world *world, uint32_t places,
                      struct random *random);
/* Notes a port that was asked for. */
void world_note_port(struct world *world, const uint32_t *numbers);

/* Each draws one. */
uint32_t world_unicast(const struct world *world, struct random *random);
uint32_t world_multicast(const struct world *world, struct random *random);
uint32_t world_path(struct random *random);
uint32_t world_invalid(struct random *random);
/* An address under the prefix of a route; any unicast one where the place
 * drawn is empty. */
uint32_t world_routed(const struct world *world, struct random *random);
/* A port of the mission; 0 where it has none. */
uint32_t world_port(const struct world *world, struct random *random);

/* The mission's route that an address would take, were each taken that was
 * asked for; null for none. */
const struct world_route *world_route(const struct world *world,
                                      uint32_t address);

/* The mask of so many ones. */
uint32_t world_mask(uint32_t ones);
/* The host bits of the address's class network. */
uint32_t world_host_bits(uint32_t address);

/* The ports of the mission, and those of both. */
static inline uint32_t world_own(const struct world *world)
{
    return world->ports_of[world->mission];
}

static inline uint32_t world_set_up(const struct world *world)
{
    return world->ports_of[0] | world->ports_of[1];
}

static inline bool world_has(uint32_t set, uint32_t port)
{
    return (set >> port & 1) != 0;
}

#endif
