/* The checksum of RFC 1071 over octets, whatever their number or place. */
#ifndef PLAIN_CHECKSUM_H
#define PLAIN_CHECKSUM_H

#include <stddef.h>
#include <stdint.h>

/* The complement of the ones' complement sum of the 16-bit words that the
 * octets make up, the last one padded by a zero octet where their number is
 * odd. No octets at all sum to 0 and answer ffff. */
uint16_t plain_checksum(const uint8_t *octets, size_t count);

/* The same, where the word at this even place counts as zero: the checksum
 * itself, in a message that carries it in its midst. */
uint16_t plain_checksum_around(const uint8_t *octets, size_t count, size_t at);

#endif
