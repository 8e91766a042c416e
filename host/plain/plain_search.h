/* Finding the place of the mission that an address belongs to, or one of its
 * ports; NULL where there is none. */
#ifndef PLAIN_SEARCH_H
#define PLAIN_SEARCH_H

#include "plain_relay.h"

const plain_group *plain_search_group(const plain_mission *mission,
                                      plain_address address);

const plain_path_place *plain_search_path(const plain_mission *mission,
                                          plain_path path);

/* Whether a port of the mission has this address. */
bool plain_search_own(const plain_view *view, plain_address destination);

/* Whether this is a broadcast of ours, whatever its class. */
bool plain_search_broadcast(const plain_view *view,
                            plain_address destination);

#endif
