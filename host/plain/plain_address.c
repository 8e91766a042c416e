/*
 * Classes of four-octet addresses, from the table of page 01, whose rows are
 * taken in their order: the first octet chooses the family, the others decide
 * within it.
 *
 * The awkward case: in net 10 the last octet is 2 x identifier + multicast
 * flag, so the flag is the lowest bit and the identifier 127 leaves two
 * octets over: 255 is the broadcast of the domain, 254 is nothing. A path
 * address looks at 254 only; 10.x.y.255 is a good path.
 */
#include "plain_address.h"

static plain_class class_in_net_ten(plain_address address)
{
    uint32_t last = address.bits & 0xff;

    if (address.bits == 0x0affffff)
        return PLAIN_ALL_SCPS_BROADCAST;
    if (last == 255)
        return PLAIN_DOMAIN_BROADCAST;
    if (last == 254)
        return PLAIN_INVALID;
    return last % 2 == 1 ? PLAIN_MULTICAST : PLAIN_UNICAST;
}

uint32_t plain_class_host_bits(plain_address address)
{
    uint32_t first = address.bits >> 24;

    if (first >= 1 && first <= 126)
        return 0x00ffffff;
    if (first >= 128 && first <= 191)
        return 0x0000ffff;
    if (first >= 192 && first <= 223)
        return 0x000000ff;
    return 0;
}

plain_class plain_address_class(plain_address address)
{
    uint32_t first = address.bits >> 24;
    uint32_t host_bits = plain_class_host_bits(address);

    if (address.bits == 0xffffffff)
        return PLAIN_LIMITED_BROADCAST;
    if (first == 10)
        return class_in_net_ten(address);
    if (host_bits != 0)
        return (address.bits & host_bits) == host_bits ? PLAIN_NET_BROADCAST
                                                       : PLAIN_UNICAST;
    return first >= 224 && first <= 239 ? PLAIN_MULTICAST : PLAIN_INVALID;
}

bool plain_path_valid(plain_path path)
{
    return path.bits >> 24 == 10 && (path.bits & 0xff) != 254;
}

bool plain_mask_contiguous(plain_mask mask)
{
    uint32_t zeros = ~mask.bits;

    /* The zeros are the lowest bits exactly where they are 2^n - 1. */
    return (zeros & (zeros + 1)) == 0;
}

uint32_t plain_mask_ones(plain_mask mask)
{
    uint32_t left = mask.bits;
    uint32_t ones = 0;

    for (; left != 0; left &= left - 1)
        ones++;
    return ones;
}
