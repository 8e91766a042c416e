/*
 * The checksum of RFC 1071. Words are put together from octets by shifting,
 * so the machine's own order of octets and their alignment do not matter. The
 * carries gather in the upper part of a 64-bit sum and are folded in once, at
 * the end: it would take 2^49 octets to overflow it.
 *
 * The awkward case: an odd number of octets. The last octet is the upper half
 * of a word whose lower half is zero.
 */
#include "plain_checksum.h"

static uint64_t sum_of(const uint8_t *octets, size_t count)
{
    uint64_t sum = 0;
    size_t even = count - count % 2;

    for (size_t at = 0; at < even; at += 2)
        sum += (uint32_t)octets[at] << 8 | octets[at + 1];
    if (even < count)
        sum += (uint32_t)octets[even] << 8;
    return sum;
}

static uint16_t complement_of(uint64_t sum)
{
    while (sum >> 16 != 0)
        sum = (sum & 0xffff) + (sum >> 16);
    return (uint16_t)(~sum & 0xffff);
}

uint16_t plain_checksum(const uint8_t *octets, size_t count)
{
    return complement_of(sum_of(octets, count));
}

uint16_t plain_checksum_around(const uint8_t *octets, size_t count, size_t at)
{
    return complement_of(sum_of(octets, at) +
                         sum_of(octets + at + 2, count - at - 2));
}
