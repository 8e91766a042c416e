/*
 * checksums.c: `checksum` lines, most of them short. The awkward case is the
 * carry that goes around, for which octets are made to sum up to FFFF.
 */
#include "checksums.h"

#include <string.h>

#include "line.h"
#include "shared/form.h"

#define MOST_SUMMED 19990

/* Random octets, all zeros, all ones, or octets whose sum is FFFF, where the
 * carry has just gone around or is just about to. */
static void choose_summed(uint8_t *octets, uint32_t length,
                          struct random *random)
{
    uint32_t kind = random_below(random, 8);
    uint16_t rest;

    random_octets(random, octets, length);
    if (kind < 2)
        memset(octets, kind == 0 ? 0x00 : 0xff, length);
    if (kind != 2 || length < 2)
        return;
    memset(octets, 0, 2);
    rest = form_checksum(octets, length);
    octets[0] = (uint8_t)(rest >> 8);
    octets[1] = (uint8_t)rest;
}

void write_checksums(uint64_t count, struct random *random)
{
    static uint8_t octets[MOST_SUMMED];

    for (uint64_t i = 0; i < count; i++) {
        uint32_t most = random_one_in(random, 200) ? MOST_SUMMED : 200;
        uint32_t length = random_below(random, most + 1);

        choose_summed(octets, length, random);
        line_octets(CALL_CHECKSUM, NULL, octets, length);
    }
}
