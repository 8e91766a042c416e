/*
 * names.c: names for readers who know water and not headers. A number that the
 * header does not list is said to be unlisted, and not passed over.
 */
#include "names.h"

#include <stddef.h>

const char *const COUNTER_NAMES[HJ_COUNTERS] = {
    "npInReceives",     "npInBadLength",     "npInBadVersion",
    "npInBadAddress",   "npInBadChecksum",   "unsupported",
    "npInAddrErrors",   "npInUnknownProtos", "npInDelivers",
    "npForwHopDiscard", "npForwDatagrams",   "npOutNoRoutes",
    "npOutDiscards",    "left-domain",       "too-big",
    "flood-unmarked",   "pairs-held",        "npOutRequests"};

static const char *const NUMBERS[HJ_PORT_SET_UP + 1] = {
    [HJ_SHORT] = "too short",
    [HJ_BAD_VERSION] = "wrong version",
    [HJ_BAD_LENGTH] = "wrong length",
    [HJ_BAD_FORM] = "forbidden control bits",
    [HJ_BAD_CHECKSUM] = "wrong checksum",
    [HJ_BAD_ADDRESS] = "an invalid address",
    [HJ_NO_DOMAIN] = "a one-octet address, and no domain to supply",
    [HJ_NOT_CARRIED] = "a service that is not carried",
    [HJ_NOT_FOR_US] = "not for this host",
    [HJ_HOPS_USED_UP] = "hop count used up",
    [HJ_NO_ROUTE] = "no route",
    [HJ_NOT_UP] = "the route is not up",
    [HJ_LEAVES_DOMAIN] = "a one-octet path would leave its domain",
    [HJ_TOO_BIG] = "too big for every port",
    [HJ_QUEUES_FULL] = "every queue is full",
    [HJ_NO_PORT] = "no such port is set up",
    [HJ_SHORT_OUTPUT] = "too little room for the output",
    [HJ_NOTHING_WAITING] = "nothing waits",
    [HJ_FIELD_RANGE] = "a field out of range",
    [HJ_DATA_TOO_LONG] = "too much data",
    [HJ_BAD_NUMBER] = "no such place or port, or the port is not set up",
    [HJ_BAD_MASK] = "wrong mask or prefix bits",
    [HJ_SAME_ENTRY] = "the same entry stands in another place",
    [HJ_BAD_CODE] =
        "a code or size out of range, or the other mission's port",
    [HJ_WRONG_CLASS] = "the wrong class of address",
    [HJ_UNKNOWN_TP_ID] = "unknown transport number",
    [HJ_BAD_BATCH] = "lists, octets or room that make no batch",
    [HJ_FLOOD_UNMARKED] = "flooded without a source or a timestamp",
    [HJ_SECOND_PAST] = "a second before the last one accepted",
    [HJ_PAIRS_HELD] = "all places for pairs are held",
    [HJ_PORT_SET_UP] = "the port is set up already"};

const char *number_name(uint32_t number)
{
    const char *words = number <= HJ_PORT_SET_UP ? NUMBERS[number] : NULL;

    return words != NULL ? words : "an unlisted number";
}
