/*
 * numbers.c: a number that fits no rule by chance finds few faults. These are
 * places just beyond the last, addresses, masks, numbers of all ones, and
 * addresses of which each octet decides something.
 */
#include "numbers.h"

uint32_t soak_odd_number(const struct world *world, struct random *random)
{
    static const uint32_t EDGES[] = {0,  1,   2,   3,    4,    5,     7,
                                     8,  9,   15,  16,   31,   32,    33,
                                     63, 64,  255, 256,  511,  512,   513,
                                     8190, 8191, 8192,
                                     0x80000000, 0xfffffffe, 0xffffffff};

    switch (random_below(random, 5)) {
    case 0:
        return (uint32_t)random_number(random);
    case 1:
        return world_unicast(world, random);
    case 2:
        return world_mask(random_below(random, 33));
    case 3:
        return random_one_in(random, 2) ? world_multicast(world, random)
                                        : world_path(random);
    default:
        return PICK(EDGES);
    }
}

uint32_t soak_draw_edge(struct random *random)
{
    static const uint8_t FIRST[] = {0,   1,   9,   10,  10,  11,  126, 127,
                                    128, 191, 192, 223, 224, 239, 240, 255};
    static const uint8_t OTHER[] = {0, 1, 2, 253, 254, 255, 255};
    uint32_t address = PICK(FIRST);

    for (int octet = 0; octet < 3; octet++)
        address = address << 8 | (random_one_in(random, 4)
                                      ? random_below(random, 256)
                                      : PICK(OTHER));
    return address;
}
