/*
 * The numbers that hold everywhere: the limits of the relay and the refusal
 * numbers. They are the papers' own numbers and leave the program as they
 * stand here, so each one is written out and none is counted up by the
 * compiler.
 *
 * The awkward case: 15 is a refusal number and yet has no counter of its own;
 * it counts once for each dropped copy, which only the queueing knows.
 */
#ifndef PLAIN_NUMBERS_H
#define PLAIN_NUMBERS_H

enum {
    PLAIN_MISSIONS = 2,
    PLAIN_PORTS = 8,
    PLAIN_ROUTES = 512, /* records in a list, at most */
    PLAIN_GROUPS = 16,
    PLAIN_PATHS = 16,
    PLAIN_PAIRS = 64, /* of flooded datagrams, in each mission */
    PLAIN_QUEUE_ENTRIES = 32,
    PLAIN_LENGTH_MOST = 8191, /* 13 bits; the largest MTU too */
    PLAIN_HEADER_MOST = 50,
    PLAIN_OUTPUT_ROOM = 400, /* of a received datagram: 50 for each port */
    PLAIN_BATCH_MOST = 64,   /* datagrams in one call */
    PLAIN_DATA_MOST = 8141,
    PLAIN_FIRST_HOP_COUNT = 64 /* of an added one, and of a reply */
};

typedef enum {
    PLAIN_GOOD = 0,
    PLAIN_SHORT = 1,
    PLAIN_BAD_VERSION = 2,
    PLAIN_BAD_LENGTH = 3,
    PLAIN_BAD_FORM = 4,
    PLAIN_BAD_CHECKSUM = 5,
    PLAIN_BAD_ADDRESS = 6,
    PLAIN_NO_DOMAIN = 7,
    PLAIN_NOT_CARRIED = 8,
    PLAIN_NOT_FOR_US = 9,
    PLAIN_HOPS_USED_UP = 10,
    PLAIN_NO_ROUTE = 11,
    PLAIN_ROUTE_NOT_UP = 12, /* given nowhere since W-204 */
    PLAIN_LEAVES_DOMAIN = 13,
    PLAIN_TOO_BIG = 14,
    PLAIN_ALL_FULL = 15,
    PLAIN_NO_PORT = 16,
    PLAIN_NO_ROOM = 17,
    PLAIN_NOTHING_WAITS = 18,
    PLAIN_FIELD_OUT_OF_RANGE = 19,
    PLAIN_TOO_MUCH_DATA = 20,
    PLAIN_SET_NUMBER = 21, /* settings: place or port */
    PLAIN_SET_MASK = 22,
    PLAIN_SET_SAME = 23,
    PLAIN_SET_CODE = 24,
    PLAIN_SET_CLASS = 25,
    PLAIN_UNKNOWN_TP_ID = 26,
    PLAIN_BATCH_UNFIT = 27,    /* a batch's lists, sum, items or room */
    PLAIN_FLOOD_UNMARKED = 28, /* flooded, no source or no timestamp */
    PLAIN_SECOND_PAST = 29,    /* a second under the last accepted one */
    PLAIN_PAIRS_HELD = 30,     /* flooded, and no place for its pair */
    PLAIN_SET_TWICE = 35 /* settings: a port is written once */
} plain_refusal;

#endif
