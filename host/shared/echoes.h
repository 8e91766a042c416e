/*
 * echoes.h: echo requests to try. Most are answered; the others lack something
 * that an answer needs, or are aimed at an address that gets none.
 */
#ifndef ECHOES_H
#define ECHOES_H

#include "datagram.h"
#include "random.h"
#include "world.h"

/* A request of the world's mission that arrives by the port, with the header
 * and the message as they are lent. */
void echoes_request(const struct world *world, uint32_t arrival,
                    struct datagram *datagram, struct random *random);

/* Room to lend for its reply: mostly the MTU of the arrival port, so few octets
 * more as a rewritten header needs, or one too few. */
uint32_t echoes_room(const struct world *world, uint32_t arrival,
                     struct random *random);

#endif
