/*
 * echoes.c: `echo` lines. The request is drawn by shared/echoes.c; here are the
 * port, the slot and the room. A port that is not the mission's, or is none,
 * comes now and then, with room that may be short too.
 */
#include "echoes.h"

#include "line.h"
#include "shared/echoes.h"

static uint32_t choose_arrival(const struct world *world,
                               struct random *random)
{
    static const uint32_t BEYOND[] = {8, 9, 255, 256, 0xffffffff};

    if (!random_one_in(random, 30))
        return world_port(world, random);
    return random_one_in(random, 3) ? PICK(BEYOND)
                                    : random_below(random, WORLD_PORTS);
}

void history_echo(const struct world *world, struct random *random)
{
    static struct datagram datagram;
    uint32_t numbers[4]; /* arrival port, slot, room, mission */

    numbers[0] = choose_arrival(world, random);
    numbers[1] = random_below(random, 65536);
    numbers[2] = echoes_room(world, numbers[0], random);
    numbers[3] = world->mission;
    echoes_request(world, numbers[0], &datagram, random);
    line_octets(CALL_ECHO, numbers, datagram.octets, datagram.count);
}
