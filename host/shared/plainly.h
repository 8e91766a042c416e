/*
 * plainly.h: a relay of host/plain, and its settings made by their numbers, as
 * the library's are.
 */
#ifndef PLAINLY_H
#define PLAINLY_H

#include "calls.h"
#include "plain/plain_relay.h"

/* All but the list, which is the caller's. */
struct plainly {
    plain_board board;
    plain_mission missions[PLAIN_MISSIONS];
};

/* Makes a call that sets (calls.h), of seven numbers, for a mission and on a
 * list; answers its refusal. */
plain_refusal plainly_set(struct plainly *relay, uint32_t mission,
                          plain_list list, enum call call,
                          const uint32_t *numbers);

/* What a mission sees of the relay and of a list. */
plain_view plainly_view(struct plainly *relay, uint32_t mission,
                        plain_list list);

#endif
