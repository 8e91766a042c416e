/*
 * addresses.c: `class` and `path` lines.
 *
 * The awkward cases are the values that chance would hardly ever hit: the edges
 * of the class table are listed before any address is drawn, and the two
 * broadcasts that are one single address each come again and again.
 */
#include "addresses.h"

#include "line.h"

/* An address that stands at an edge of the class table: every first octet, with
 * edges of the middle octets and of the last. */
#define MIDDLE_EDGES 6
#define LAST_EDGES 9
#define EDGES (256 * MIDDLE_EDGES * MIDDLE_EDGES * LAST_EDGES)

static uint32_t edge_address(uint32_t place)
{
    static const uint8_t MIDDLE[MIDDLE_EDGES] = {0, 1, 127, 128, 254, 255};
    static const uint8_t LAST[LAST_EDGES] = {0,   1,   2,   127, 128,
                                             252, 253, 254, 255};
    uint32_t last = LAST[place % LAST_EDGES];
    uint32_t third = MIDDLE[place / LAST_EDGES % MIDDLE_EDGES];
    uint32_t second =
        MIDDLE[place / (LAST_EDGES * MIDDLE_EDGES) % MIDDLE_EDGES];
    uint32_t first = place / (LAST_EDGES * MIDDLE_EDGES * MIDDLE_EDGES);

    return first << 24 | second << 16 | third << 8 | last;
}

static uint32_t drawn_address(struct random *random)
{
    uint32_t address = (uint32_t)random_number(random);

    switch (random_below(random, 16)) {
    case 0:
        return 10u << 24 | 0xffffff;
    case 1:
        return 0xffffffff;
    case 2: /* one bit off the single addresses */
        return 0xffffffff ^ 1u << random_below(random, 32);
    case 3:
        return (10u << 24 | 0xffffff) ^ 1u << random_below(random, 32);
    case 4: /* the last one to three octets all ones */
        return address | 0xffffffffu >> 8 * (1 + random_below(random, 3));
    case 5:
    case 6:
    case 7: /* SCPS, last octets and all */
        return 10u << 24 | (address & 0xffffff);
    default:
        return address;
    }
}

void write_addresses(uint64_t count, struct random *random)
{
    for (uint64_t i = 0; i < count; i++) {
        uint32_t address = i < EDGES ? edge_address((uint32_t)i)
                                     : drawn_address(random);

        line_number(CALL_CLASS, address);
        line_number(CALL_PATH, address);
    }
}
