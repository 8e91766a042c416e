/* Numbers as octets, the most significant first, wherever they stand. */
#ifndef PLAIN_WIRE_H
#define PLAIN_WIRE_H

#include <stdint.h>

static inline uint64_t plain_number_at(const uint8_t *octets, uint32_t count)
{
    uint64_t number = 0;

    for (uint32_t at = 0; at < count; at++)
        number = number << 8 | octets[at];
    return number;
}

/* Answers the place after the last octet written. */
static inline uint8_t *plain_put_number(uint8_t *at, uint64_t number,
                                        uint32_t count)
{
    for (uint32_t left = count; left > 0; left--)
        *at++ = (uint8_t)(number >> (8 * (left - 1)) & 0xff);
    return at;
}

#endif
