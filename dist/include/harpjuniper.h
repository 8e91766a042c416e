/*
 * harpjuniper.h: what flight software calls.
 *
 * Harpjuniper is a relay for SCPS-NP datagrams (CCSDS 713.0-B-1). The library
 * is written in Rattle, and every function is proved to give, for every input,
 * the answer that its definition states (docs/PROMISES.md). You need not check
 * an input first: bad input gets a refusal number and changes nothing that was
 * lent, except in the mission that received it the counters, the last second
 * and a kept pair; and in a batch that is heard each item has its answer
 * written, a refused one too.
 *
 * Two missions, 0 and 1, share a relay. Three things are lent to its calls:
 *   - the board, the operator's: router or host, the lifetime of floods, echo
 *     drop, and the ports, each with the mission that it belongs to;
 *   - a mission's state: its number, its groups, paths, queues and counters,
 *     the pairs of floods that it holds and the last second that it accepted;
 *   - the routes, the operator's: a list of up to HJ_ROUTES records, each with
 *     the mission that may use it. The list may be shorter, or empty.
 * A mission's call is lent its own state and, where it needs them, the board
 * and the routes to read. It is never lent the other mission's state, and sees
 * neither the other's ports nor its routes.
 *
 * What the caller must ensure, since no proof reaches across the call:
 *   - each pointer is valid for as many octets, words or records as the count
 *     passed with it (a null pointer with a count of 0 is valid);
 *   - words and records are aligned as uint32_t is, and each other list as its
 *     type is;
 *   - two buffers lent to one call do not overlap;
 *   - while a call works on what it may change, in whatever thread, no other
 *     call is lent the same; what calls only read may be lent to many at once,
 *     so that two missions may be served at the same time;
 *   - a board or a state is passed back as the last call left it. With any
 *     other words a call still returns an answer, which docs/STATES.md lists;
 *     the ranges of answers below hold for what calls leave.
 * The list of routes is judged anew by each call that reads it. A record that
 * hj_set_route would refuse counts as empty, and so does one that holds the
 * same entry as a lower place that counts.
 *
 * The library allocates nothing, keeps nothing between calls, and never blocks.
 *
 * A relay is a board, two states and a list that the caller allocates:
 *
 *     static hj_board board;
 *     static hj_mission mission[HJ_MISSIONS];
 *     static hj_record routes[HJ_ROUTES];
 *
 *     hj_fresh_board(&board, HJ_BOARD_WORDS);
 *     hj_fresh_mission(&mission[0], HJ_MISSION_WORDS, 0);
 *     hj_fresh_mission(&mission[1], HJ_MISSION_WORDS, 1);
 *
 * A record of all zeros is empty, so a static list needs no call.
 */
#ifndef HARPJUNIPER_H
#define HARPJUNIPER_H

#include <stddef.h>
#include <stdint.h>

#ifdef __cplusplus
extern "C" {
#endif

/* ---- The version -------------------------------------------------------- */

/* The version of this header and of the library that it comes with. */
#define HJ_VERSION "0.5.4"
#define HJ_VERSION_MAJOR 0
#define HJ_VERSION_MINOR 5
#define HJ_VERSION_PATCH 4

/* ---- Numbers that hold everywhere ------------------------------------- */

/* The words of a board, and of a mission's state. */
#define HJ_BOARD_WORDS 43u
#define HJ_MISSION_WORDS 732u
/* The words of a reading, and of the fields to build of (hj_read_words and
 * hj_build_words, which hj_read and hj_build are made of). */
#define HJ_READING_WORDS 28u
#define HJ_FIELD_WORDS 26u
/* The words of an echo message (hj_read_echo_words, which hj_read_echo is made
 * of). */
#define HJ_MESSAGE_WORDS 10u
/* The longest header, in octets: the smallest output of hj_build, and what each
 * port has of the output of hj_receive. */
#define HJ_HEADER_ROOM 50u
/* The smallest output of hj_receive, in octets, however many ports are set up,
 * and what each item has of the output of hj_receive_many: the header for port
 * p stands from octet HJ_HEADER_ROOM * p on. */
#define HJ_OUTPUT_ROOM (HJ_PORTS * HJ_HEADER_ROOM)
/* The most octets of user data in a datagram that is built, and so of an echo
 * message. */
#define HJ_MOST_DATA 8141
/* The largest length of a datagram, and the largest MTU of a port. */
#define HJ_MOST_LENGTH 8191

/* Octets of an echo message before its data. */
#define HJ_REQUEST_OCTETS 8
#define HJ_REPLY_OCTETS 26

/* The most datagrams in one call of hj_receive_many. */
#define HJ_MOST_ITEMS 64

/* How many there are of each, numbered from 0; of routes the most in a list. */
#define HJ_MISSIONS 2
#define HJ_PORTS 8
#define HJ_ROUTES 512
#define HJ_GROUPS 16
#define HJ_PATHS 16
/* Pairs of source and timestamp that a mission may hold. */
#define HJ_PAIRS 64
/* Entries that may wait on one port. */
#define HJ_QUEUE 32

/* Refusal numbers. Each call below lists those that it can return. */
#define HJ_DONE 0             /* no refusal */
#define HJ_SHORT 1            /* under 3 octets, or control field truncated;
                                 an echo message that ends too soon */
#define HJ_BAD_VERSION 2      /* version/protocol identifier is not 001 */
#define HJ_BAD_LENGTH 3       /* length field over the octets lent, or under
                                 the header's own length */
#define HJ_BAD_FORM 4         /* control bits that the standard forbids; type
                                 or code of no echo message */
#define HJ_BAD_CHECKSUM 5     /* header checksum present and wrong, or that of
                                 an echo message wrong */
#define HJ_BAD_ADDRESS 6      /* invalid destination or path, or a source that
                                 is present and not unicast */
#define HJ_NO_DOMAIN 7        /* one-octet address, and the arrival port has no
                                 domain to supply */
#define HJ_NOT_CARRIED 8      /* service not carried: routing requirements 1 or
                                 2, or IPv6 addresses */
#define HJ_NOT_FOR_US 9       /* a host, and the datagram is not for it */
#define HJ_HOPS_USED_UP 10    /* hop count present and 0 or 1 */
#define HJ_NO_ROUTE 11        /* no route that is up, no group, no path, an
                                 empty set, or no other port to flood */
#define HJ_NOT_UP 12          /* no longer given: a route that is not up is
                                 passed over */
#define HJ_LEAVES_DOMAIN 13   /* a one-octet path would leave its domain */
#define HJ_TOO_BIG 14         /* too big for every port, as it would be sent; a
                                 reply also for the room lent */
#define HJ_QUEUES_FULL 15     /* every queue is full */
#define HJ_NO_PORT 16         /* the port is over 7, not set up or the other
                                 mission's; or a wrong number of words */
#define HJ_SHORT_OUTPUT 17    /* output under HJ_OUTPUT_ROOM octets,
                                 HJ_HEADER_ROOM to build, the arrival port's
                                 MTU for a reply, or the message's octets */
#define HJ_NOTHING_WAITING 18 /* no entry waits on the port */
#define HJ_FIELD_RANGE 19     /* a field out of range, or a combination of
                                 fields that the standard forbids */
#define HJ_DATA_TOO_LONG 20   /* user data, or an echo message, of over
                                 HJ_MOST_DATA octets */
#define HJ_BAD_NUMBER 21      /* place or port number, or a port not set up; a
                                 list of over HJ_ROUTES records; or a wrong
                                 number of words */
#define HJ_BAD_MASK 22        /* mask or prefix bits */
#define HJ_SAME_ENTRY 23      /* another place holds the same entry */
#define HJ_BAD_CODE 24        /* code, size or mission out of range, or the
                                 other mission's port */
#define HJ_WRONG_CLASS 25     /* wrong address class */
#define HJ_UNKNOWN_TP_ID 26   /* the transport protocol is not assigned; in
                                 the local half only */
#define HJ_BAD_BATCH 27       /* many datagrams in one call: lists of unequal
                                 length, over HJ_MOST_ITEMS items, lengths that
                                 sum to more than the octets lent, or output
                                 under HJ_OUTPUT_ROOM octets an item */
#define HJ_FLOOD_UNMARKED 28  /* flooded, without a source or a timestamp */
#define HJ_SECOND_PAST 29     /* the second is under the last accepted one */
#define HJ_PAIRS_HELD 30      /* flooded, and all HJ_PAIRS places are held; in
                                 the onward half only */
#define HJ_PORT_SET_UP 35     /* the port is set up: it is written once */

/* The local half of a verdict: one of these, or HJ_UNKNOWN_TP_ID. */
#define HJ_LOCAL_NO 0
#define HJ_DELIVERED 1

/* The onward half of a verdict: one of these, or 9 to 11, 13 to 15, or 30. */
#define HJ_NOT_ASKED 0
#define HJ_SENT_ON 1

/* What hj_onward says of a reply: this, HJ_SENT_ON, or 11, 14 or 15. */
#define HJ_NO_REPLY 0

/* The transport of control messages (SCMP), and the types of an echo. */
#define HJ_TP_SCMP 1
#define HJ_ECHO_REPLY 0
#define HJ_ECHO_REQUEST 8

/* Availability of a route. Only a route that is up is used; one that is not
 * hides no other. */
#define HJ_UP 1
#define HJ_DOWN 2
#define HJ_TESTING 3
#define HJ_OUT 4

/* Capabilities of a route: the elements that a header sent by it has, added to
 * one that came without; a hop count that is added is 64. */
#define HJ_CAPABLE_NONE 0
#define HJ_CAPABLE_CHECKSUM 1
#define HJ_CAPABLE_HOP_COUNT 2
#define HJ_CAPABLE_BOTH 4 /* not 3, which is refused */

/* Counters, each modulo 2^32. Later ones are appended. */
#define HJ_IN_RECEIVES 0       /* npInReceives: each receipt but 16, 17, 21
                                  and 29; each item of a batch is one, unless
                                  the whole call is refused */
#define HJ_IN_BAD_LENGTH 1     /* npInBadLength: refusals 1 and 3 */
#define HJ_IN_BAD_VERSION 2    /* npInBadVersion: 2 */
#define HJ_IN_BAD_ADDRESS 3    /* npInBadAddress: 4, 6 and 7 */
#define HJ_IN_BAD_CHECKSUM 4   /* npInBadChecksum: 5 */
#define HJ_UNSUPPORTED 5       /* unsupported: 8 */
#define HJ_IN_ADDR_ERRORS 6    /* npInAddrErrors: 9 */
#define HJ_IN_UNKNOWN_PROTOS 7 /* npInUnknownProtos: 26 */
#define HJ_IN_DELIVERS 8       /* npInDelivers: deliveries */
#define HJ_FORW_HOP_DISCARD 9  /* npForwHopDiscard: 10 */
#define HJ_FORW_DATAGRAMS 10   /* npForwDatagrams: datagrams sent on, one each
                                  however many ports took it */
#define HJ_OUT_NO_ROUTES 11    /* npOutNoRoutes: 11, of a reply too */
#define HJ_OUT_DISCARDS 12     /* npOutDiscards: dropped copies and replies */
#define HJ_LEFT_DOMAIN 13      /* left domain: 13 */
#define HJ_TOO_BIG_COUNT 14    /* too big: 14, of a reply too */
#define HJ_FLOOD_UNMARKED_COUNT 15 /* flood unmarked: 28 */
#define HJ_PAIRS_HELD_COUNT 16     /* pairs held: 30 */
#define HJ_OUT_REQUESTS 17         /* npOutRequests: replies made, whether a
                                      port took them or not */
#define HJ_COUNTERS 18

/* Classes of a four-octet address. */
#define HJ_INVALID 0
#define HJ_UNICAST 1
#define HJ_MULTICAST 2
#define HJ_NET_BROADCAST 3
#define HJ_DOMAIN_BROADCAST 4
#define HJ_SCPS_BROADCAST 5    /* 10.255.255.255, all SCPS */
#define HJ_LIMITED_BROADCAST 6 /* 255.255.255.255 */

/* Timestamp formats, as bits 27 and 28 of a header have them. */
#define HJ_STAMP_NONE 0
#define HJ_STAMP_IMPLICIT 1 /* three octets of time, P-field implied */
#define HJ_STAMP_EXPLICIT 2 /* a P-field octet, then one to seven octets */
#define HJ_STAMP_BINARY 3   /* four octets of time */

/* ---- What is lent ------------------------------------------------------ */

/*
 * The words of a board and of a mission's state are the library's own: look at
 * them by the calls below. Each is a type of its own, so that one is not taken
 * for the other.
 */
typedef struct hj_board {
    uint32_t words[HJ_BOARD_WORDS];
} hj_board;

typedef struct hj_mission {
    uint32_t words[HJ_MISSION_WORDS];
} hj_mission;

/*
 * A record of the list of routes. The caller may write it itself, in whatever
 * way: a record that hj_set_route would refuse counts as empty.
 */
typedef struct hj_record {
    uint32_t filled; /* 0 for an empty record, any other number for a filled */
    uint32_t prefix;
    uint32_t mask;
    uint32_t port;
    uint32_t availability; /* HJ_UP to HJ_OUT */
    uint32_t capabilities; /* HJ_CAPABLE_NONE to HJ_CAPABLE_BOTH */
    uint32_t mission;      /* which may use it, 0 or 1 */
} hj_record;

/*
 * How a datagram arrived. The slot is the caller's own number for it, and may
 * repeat: hj_take returns it. The second is when it came, by the caller's
 * clock. It never starts over: a mission's call with a second under the last
 * accepted one is refused (HJ_SECOND_PAST). Read "Seconds and floods", below,
 * before you choose where it comes from.
 */
typedef struct hj_arrival {
    uint32_t port;
    uint16_t slot;
    uint32_t second;
} hj_arrival;

/* ---- Answers ----------------------------------------------------------- */

/*
 * A refusal or a value: the refusal number in the upper 32 bits, the value in
 * the lower 32 bits. With a refusal the value is 0.
 */
typedef uint64_t hj_answer;

static inline uint32_t hj_refusal(hj_answer answer)
{
    return (uint32_t)(answer >> 32);
}

static inline uint32_t hj_value(hj_answer answer)
{
    return (uint32_t)(answer & 0xffffffffu);
}

/*
 * The fields of a header, as numbers. An element is absent where its flag, or
 * the timestamp's format, is 0; its other members are then 0 too.
 *
 * A one-octet or four-octet address is in the low half, and the high half is
 * 0; an IPv6 address has its first eight octets in the high half. A header
 * without a source carries a path, and its destination is a path address.
 */
typedef struct hj_fields {
    uint64_t destination_high;
    uint64_t destination_low;
    uint64_t source_high;
    uint64_t source_low;
    uint64_t time;             /* the timestamp's time field */
    uint32_t tp_id;            /* 0 to 15 */
    uint32_t has_source;       /* 0 or 1, like the other flags */
    uint32_t extended;         /* addresses of four octets */
    uint32_t ipv6;             /* addresses of sixteen octets */
    uint32_t has_qos;          /* basic QOS */
    uint32_t precedence;       /* 0 to 15 */
    uint32_t routing;          /* routing requirements, 0 to 3 */
    uint32_t program;          /* program specific, 0 to 3 */
    uint32_t has_hop_count;
    uint32_t hop_count;        /* 0 to 255 */
    uint32_t stamp_format;     /* HJ_STAMP_NONE to HJ_STAMP_BINARY */
    uint32_t p_field;          /* 0 to 255, with HJ_STAMP_EXPLICIT only */
    uint32_t has_expanded;     /* expanded QOS */
    uint32_t expanded;         /* 0 to 255 */
    uint32_t has_checksum;
    uint32_t intermediate;     /* intermediate delivery requested */
} hj_fields;

/*
 * What reading found. With a refusal, every other number is 0. Each octet of it
 * belongs to a member, so that two of them can be compared whole.
 */
typedef struct hj_reading {
    uint32_t refusal;
    uint32_t length;   /* the length field: octets of the whole datagram */
    uint32_t header;   /* the header's own length in octets, 4 to 50 */
    uint32_t reserved; /* 0 */
    hj_fields fields;
} hj_reading;

/*
 * What an echo message says, as hj_read_echo finds it, or as hj_build_echo is
 * to build it. The data go on to its end. With a refusal every other number is
 * 0. Each octet of it belongs to a member, so that two of them can be compared
 * whole.
 */
typedef struct hj_message {
    uint32_t refusal;
    uint32_t type; /* HJ_ECHO_REQUEST or HJ_ECHO_REPLY */
    uint32_t identifier;
    uint32_t sequence;
    uint32_t data_from; /* octets of the message before its data */
    uint32_t hop_count; /* the hop count with which the request came; this and
                           what follows 0 in a request */
    uint32_t format;    /* the whole octet; its low two bits are the format of
                           the request's timestamp */
    uint32_t mtu;       /* of the port by which the request came */
    uint64_t stamp;     /* the request's timestamp, in format 2 with its
                           P-field, at the lower end of eight octets */
    uint32_t rate;      /* receive data rate in bits per second; 0 unknown */
    uint32_t reserved;  /* 0 */
} hj_message;

/*
 * The answer of hj_receive, eight bits for each part, and of hj_echo, which has
 * no local half, and has hj_reply_octets in the place of the last three parts.
 * With a refusal all other parts are 0.
 */
typedef uint64_t hj_verdict;

/* What ended the call, or HJ_DONE. */
static inline uint32_t hj_ended_by(hj_verdict verdict)
{
    return (uint32_t)(verdict & 0xffu);
}

/* HJ_LOCAL_NO, HJ_DELIVERED or HJ_UNKNOWN_TP_ID. */
static inline uint32_t hj_local(hj_verdict verdict)
{
    return (uint32_t)(verdict >> 8 & 0xffu);
}

/* HJ_NOT_ASKED, HJ_SENT_ON or what ended the onward half; of a reply
 * HJ_NO_REPLY, HJ_SENT_ON or what ended it. */
static inline uint32_t hj_onward(hj_verdict verdict)
{
    return (uint32_t)(verdict >> 16 & 0xffu);
}

/* The set of ports that took an entry, port p as 2^p. */
static inline uint32_t hj_took(hj_verdict verdict)
{
    return (uint32_t)(verdict >> 24 & 0xffu);
}

/* The set of ports that dropped their copy because their queue was full. */
static inline uint32_t hj_dropped(hj_verdict verdict)
{
    return (uint32_t)(verdict >> 32 & 0xffu);
}

/*
 * Octets of the header that arrived, so the place in the datagram where its
 * data begin: 4 to 50 with HJ_DONE, whatever the two halves are.
 */
static inline uint32_t hj_data_from(hj_verdict verdict)
{
    return (uint32_t)(verdict >> 40 & 0xffu);
}

/* Octets of the rewritten header; 0 where no port took an entry with one. */
static inline uint32_t hj_rewritten_octets(hj_verdict verdict)
{
    return (uint32_t)(verdict >> 48 & 0xffu);
}

/* The set of ports that took an entry and have the rewritten header. */
static inline uint32_t hj_rewritten(hj_verdict verdict)
{
    return (uint32_t)(verdict >> 56 & 0xffu);
}

/* Octets of the header for a port; 0 where it took no entry, or is over 7. */
static inline uint32_t hj_header_octets(hj_verdict verdict, uint32_t port)
{
    if (port >= HJ_PORTS || (hj_took(verdict) >> port & 1u) == 0)
        return 0;
    if ((hj_rewritten(verdict) >> port & 1u) == 0)
        return hj_data_from(verdict);
    return hj_rewritten_octets(verdict);
}

/* The header for a port, 0 to 7, in the output of hj_receive, or in that of an
 * item. */
static inline const uint8_t *hj_header(const uint8_t *output, uint32_t port)
{
    return output + HJ_HEADER_ROOM * port;
}

/* The output of an item, 0 to HJ_MOST_ITEMS - 1, in that of hj_receive_many. */
static inline const uint8_t *hj_item_output(const uint8_t *output, size_t item)
{
    return output + HJ_OUTPUT_ROOM * item;
}

/* Octets of the reply at the front of the output of hj_echo, header and
 * message; 0 where none went. */
static inline uint32_t hj_reply_octets(hj_verdict verdict)
{
    return (uint32_t)(verdict >> 40 & 0xffffu);
}

/*
 * Many datagrams for one call, hj_receive_batch: how each arrived, and room for
 * the answers and for the output, but not the octets of the datagrams.
 * hj_batch_add fills it. It has some 27,000 octets, which is much for a stack.
 */
typedef struct hj_batch {
    hj_verdict answers[HJ_MOST_ITEMS];
    size_t items; /* of the lists, how many are filled; 0 at first */
    uint32_t lengths[HJ_MOST_ITEMS];
    uint32_t ports[HJ_MOST_ITEMS];
    uint32_t seconds[HJ_MOST_ITEMS];
    uint16_t slots[HJ_MOST_ITEMS];
    uint8_t output[HJ_MOST_ITEMS * HJ_OUTPUT_ROOM];
} hj_batch;

/*
 * The parts of hj_take's answer. hj_refusal, above, gives the refusal; with a
 * refusal both of these are 0.
 */
static inline uint16_t hj_slot(hj_answer answer)
{
    return (uint16_t)(answer & 0xffffu);
}

static inline uint32_t hj_precedence(hj_answer answer)
{
    return (uint32_t)(answer >> 16 & 0xffffu);
}

/*
 * The answer of hj_search; the top sixteen bits are 0. Where no route was
 * found, and with a refusal, all other parts are 0. A route may have 0 ones, so
 * only hj_is_found says whether there is one.
 */
typedef uint64_t hj_found;

/* HJ_DONE or HJ_BAD_NUMBER. */
static inline uint32_t hj_found_refusal(hj_found found)
{
    return (uint32_t)(found & 0xffu);
}

/* 1 where a route was found, else 0. */
static inline uint32_t hj_is_found(hj_found found)
{
    return (uint32_t)(found >> 8 & 0xffu);
}

/* The place of the route in the list, 0 to HJ_ROUTES - 1. */
static inline uint32_t hj_found_place(hj_found found)
{
    return (uint32_t)(found >> 16 & 0xffffu);
}

/* The ones of its mask, 0 to 32. */
static inline uint32_t hj_found_ones(hj_found found)
{
    return (uint32_t)(found >> 32 & 0xffu);
}

/* Its port, 0 to HJ_PORTS - 1. */
static inline uint32_t hj_found_port(hj_found found)
{
    return (uint32_t)(found >> 40 & 0xffu);
}

/*
 * The settings as they stand. Every other number is 0 with a refusal, and where
 * the port is not set up or the place of a group or a path is empty. A record
 * of the list is given as it stands, an empty one too.
 */
typedef struct hj_port {
    uint32_t refusal;
    uint32_t ready; /* 1 where the port is set up */
    uint32_t address;
    uint32_t mask;
    uint32_t mtu;
    uint32_t mission; /* whose port it is, 0 or 1 */
} hj_port;

typedef struct hj_route {
    uint32_t refusal;
    uint32_t filled; /* the numbers of the hj_record, as they stand */
    uint32_t prefix;
    uint32_t mask;
    uint32_t port;
    uint32_t availability;
    uint32_t capabilities;
    uint32_t mission;
} hj_route;

typedef struct hj_group {
    uint32_t refusal;
    uint32_t filled; /* 1 where the place is not empty; also below */
    uint32_t address;
    uint32_t send;       /* a set of ports */
    uint32_t subscribed; /* a set of ports */
} hj_group;

typedef struct hj_path_place {
    uint32_t refusal;
    uint32_t filled;
    uint32_t path;
    uint32_t send; /* a set of ports */
    uint32_t here; /* 1 if delivered here */
} hj_path_place;

/*
 * The pair of a flood that a place holds. All numbers but the refusal are 0
 * where the place is free, and with a refusal. Each octet of it belongs to a
 * member, so that two of them can be compared whole.
 */
typedef struct hj_pair {
    uint32_t refusal;
    uint32_t format;   /* 0 where the place is free, else HJ_STAMP_IMPLICIT to
                          HJ_STAMP_BINARY */
    uint32_t source;   /* as four octets */
    uint32_t p_field;  /* 0 to 255, with HJ_STAMP_EXPLICIT only */
    uint64_t time;     /* the timestamp's time field */
    uint32_t second;   /* in which it came */
    uint32_t reserved; /* 0 */
} hj_pair;

/* ---- Calls on headers and addresses ------------------------------------ */

/*
 * Reads the header at the start of the octets, into words. hj_read, below,
 * gives the same as a hj_reading.
 *
 * The words are, in this order: length, header, and the members of hj_fields in
 * their order, one of 64 bits as two words, the upper half first.
 *
 * Returns the first of these that holds, in this order:
 *   HJ_BAD_NUMBER (21)   word_count is not HJ_READING_WORDS;
 *   HJ_SHORT (1), HJ_BAD_VERSION (2), HJ_BAD_FORM (4), HJ_BAD_LENGTH (3),
 *   HJ_BAD_CHECKSUM (5)  as hj_read gives them;
 *   HJ_DONE (0)          done.
 * With a refusal the words are not changed.
 */
uint32_t hj_read_words(const uint8_t *octets, size_t count, uint32_t *words,
                       size_t word_count);

/*
 * Builds a header of words, which are the members of hj_fields as hj_read_words
 * gives them. hj_build, below, does the same with a hj_fields.
 *
 * Returns an answer: hj_value is the header's length in octets, 4 to 50, or
 * hj_refusal is
 *   HJ_BAD_NUMBER (21)    word_count is not HJ_FIELD_WORDS;
 *   HJ_SHORT_OUTPUT (17), HJ_FIELD_RANGE (19), HJ_DATA_TOO_LONG (20)
 *                         as hj_build gives them.
 * The first that holds, in this order, is given, and nothing is written.
 */
hj_answer hj_build_words(const uint32_t *words, size_t word_count, size_t data,
                         uint8_t *output, size_t room);

/*
 * The class of a four-octet address, its first octet the most significant.
 *
 * Returns HJ_INVALID (0), HJ_UNICAST (1), HJ_MULTICAST (2),
 * HJ_NET_BROADCAST (3), HJ_DOMAIN_BROADCAST (4), HJ_SCPS_BROADCAST (5) or
 * HJ_LIMITED_BROADCAST (6).
 */
uint32_t hj_class(uint32_t address);

/*
 * Whether a path address is valid: its first octet is 10 and its last is not
 * 254.
 *
 * Returns 1 if it is, else 0.
 */
uint32_t hj_path(uint32_t path);

/*
 * The checksum of RFC 1071: the complement of the ones' complement sum of the
 * octets as 16-bit words, with an odd last octet padded by a zero octet.
 *
 * Returns 0 to 65535: 65535 exactly where there are no octets or every octet
 * is 0.
 */
uint16_t hj_checksum(const uint8_t *octets, size_t count);

/* ---- Calls on echo messages --------------------------------------------- */

/*
 * A message is the user data of a datagram of transport HJ_TP_SCMP, the octets
 * behind its header up to what its length field says.
 */

/*
 * Reads an echo message, into words. hj_read_echo, below, gives the same as a
 * hj_message.
 *
 * The words are, in this order: type, identifier, sequence, data_from,
 * hop_count, format, the upper and the lower half of the timestamp, MTU, rate.
 *
 * Returns the first of these that holds, in this order:
 *   HJ_BAD_NUMBER (21)    word_count is not HJ_MESSAGE_WORDS;
 *   HJ_SHORT (1), HJ_BAD_FORM (4), HJ_BAD_CHECKSUM (5)
 *                         as hj_read_echo gives them;
 *   HJ_DONE (0)           done.
 * With a refusal the words are not changed.
 */
uint32_t hj_read_echo_words(const uint8_t *message, size_t count,
                            uint32_t *words, size_t word_count);

/*
 * Each of these builds an echo message at the start of the output, with its
 * checksum: a request of HJ_REQUEST_OCTETS octets, or a reply of
 * HJ_REPLY_OCTETS, and behind them the data. Every number is taken; that a
 * format octet has only two bits to use is the caller's affair. The header of
 * the datagram is another matter (hj_build, with HJ_TP_SCMP, a source and a hop
 * count, without which a request is not answered). hj_build_echo, below, does
 * the same with a hj_message.
 *
 * Returns an answer: hj_value is the octets of the message, or hj_refusal is
 *   HJ_SHORT_OUTPUT (17)   room is under the octets of the message;
 *   HJ_DATA_TOO_LONG (20)  the message has over HJ_MOST_DATA octets.
 * The first that holds, in this order, is given, and nothing is written.
 * Octets of the output after the message are never written.
 */
hj_answer hj_build_request(uint16_t identifier, uint16_t sequence,
                           const uint8_t *data, size_t data_octets,
                           uint8_t *output, size_t room);
hj_answer hj_build_reply(uint16_t identifier, uint16_t sequence,
                         uint8_t hop_count, uint8_t format, uint64_t stamp,
                         uint32_t mtu, uint32_t rate, const uint8_t *data,
                         size_t data_octets, uint8_t *output, size_t room);

/* ---- Calls on a relay: what is lent ------------------------------------- */

/*
 * In every call below board_words should be HJ_BOARD_WORDS, mission_words
 * HJ_MISSION_WORDS, and route_count, the records of the list, at most
 * HJ_ROUTES. The "right words" are that many. A call that refuses changes
 * nothing, except as hj_receive, hj_receive_many and hj_echo say.
 */

/*
 * How many words a board has in the library that is linked, and a mission's
 * state.
 *
 * Returns HJ_BOARD_WORDS (43) and HJ_MISSION_WORDS (732); any other number
 * means that this header and the library do not match.
 */
uint32_t hj_board_words(void);
uint32_t hj_mission_words(void);

/*
 * Makes a fresh board of the words, whatever they held: a host, no port set up,
 * a lifetime of 0, and echo drop off. Made fresh in the midst of a relay's
 * life, it takes the ports away and leaves what waits on them (docs/STATES.md).
 *
 * Returns
 *   HJ_DONE (0)         done;
 *   HJ_BAD_NUMBER (21)  not the right words.
 */
uint32_t hj_fresh_board(hj_board *board, size_t board_words);

/*
 * Makes a fresh state of the mission with this number, whatever the words held:
 * every place empty, nothing waiting, every counter 0, no pair held, and the
 * last second 0.
 *
 * Returns the first of these that holds, in this order:
 *   HJ_BAD_NUMBER (21)  not the right words;
 *   HJ_BAD_CODE (24)    number is not under HJ_MISSIONS;
 *   HJ_DONE (0)         done.
 */
uint32_t hj_fresh_mission(hj_mission *mission, size_t mission_words,
                          uint32_t number);

/* ---- Calls on a relay: the operator's settings --------------------------- */

/*
 * Makes the node a router (1) or a host (0), for both missions.
 *
 * Returns the first of these that holds, in this order:
 *   HJ_BAD_NUMBER (21)  not the right words;
 *   HJ_BAD_CODE (24)    router is neither 0 nor 1;
 *   HJ_DONE (0)         done.
 */
uint32_t hj_set_router(hj_board *board, size_t board_words, uint32_t router);

/*
 * Sets the lifetime of floods, in seconds, for both missions: hj_sweep frees
 * the pairs that are older. Any number is taken. This call frees nothing.
 *
 * Returns
 *   HJ_DONE (0)         done;
 *   HJ_BAD_NUMBER (21)  not the right words.
 */
uint32_t hj_set_lifetime(hj_board *board, size_t board_words,
                         uint32_t lifetime);

/*
 * Sets echo drop, on (1) or off (0), for both missions: while it is on, hj_echo
 * answers no request.
 *
 * Returns the first of these that holds, in this order:
 *   HJ_BAD_NUMBER (21)  not the right words;
 *   HJ_BAD_CODE (24)    drop is neither 0 nor 1;
 *   HJ_DONE (0)         done.
 */
uint32_t hj_set_echo_drop(hj_board *board, size_t board_words, uint32_t drop);

/*
 * Sets up a port: its address, mask and MTU, and the mission that it belongs
 * to. A port is written once.
 *
 * Returns the first of these that holds, in this order:
 *   HJ_BAD_NUMBER (21)   not the right words, or port is over 7;
 *   HJ_WRONG_CLASS (25)  the address is not unicast;
 *   HJ_BAD_MASK (22)     the mask is not ones and then zeros, has under 8 or
 *                        over 30 ones, or not 24 where the address begins with
 *                        10; or the address's host bits are all ones;
 *   HJ_BAD_CODE (24)     the MTU is 0 or over HJ_MOST_LENGTH, or mission is not
 *                        under HJ_MISSIONS;
 *   HJ_PORT_SET_UP (35)  the port is set up, whosever it is, even if the same
 *                        values are written;
 *   HJ_DONE (0)          done.
 */
uint32_t hj_set_port(hj_board *board, size_t board_words, uint32_t port,
                     uint32_t address, uint32_t mask, uint32_t mtu,
                     uint32_t mission);

/*
 * Writes a route of a mission into a record of the list, replacing what it
 * held.
 *
 * Returns the first of these that holds, in this order:
 *   HJ_BAD_NUMBER (21)  route_count is over HJ_ROUTES, not the right words,
 *                       place is not under route_count, or port is over 7 or
 *                       not set up;
 *   HJ_BAD_MASK (22)    the mask is not ones and then zeros, or the prefix has
 *                       a one outside it;
 *   HJ_BAD_CODE (24)    availability is not 1 to 4, capabilities is not 0, 1, 2
 *                       or 4, mission is not under HJ_MISSIONS, or the port is
 *                       the other mission's;
 *   HJ_SAME_ENTRY (23)  another record, one that counts, has the same prefix,
 *                       mask and mission, whether it is up or not;
 *   HJ_DONE (0)         done.
 */
uint32_t hj_set_route(const hj_board *board, size_t board_words,
                      hj_record *routes, size_t route_count, uint32_t place,
                      uint32_t prefix, uint32_t mask, uint32_t port,
                      uint32_t availability, uint32_t capabilities,
                      uint32_t mission);

/*
 * Empties a record of the list, which may be empty already: all its numbers are
 * then 0.
 *
 * Returns
 *   HJ_DONE (0)         done;
 *   HJ_BAD_NUMBER (21)  route_count is over HJ_ROUTES, or place is not under
 *                       route_count.
 */
uint32_t hj_clear_route(hj_record *routes, size_t route_count, uint32_t place);

/* ---- Calls on a relay: a mission's settings ------------------------------ */

/*
 * Writes a group into a place of the mission, replacing what it held. The sets
 * may be empty.
 *
 * Returns the first of these that holds, in this order:
 *   HJ_BAD_NUMBER (21)   not the right words, place is over 15, or a set names
 *                        a port that is over 7, or not set up for the mission;
 *   HJ_WRONG_CLASS (25)  the address is not multicast;
 *   HJ_SAME_ENTRY (23)   another place has the same address;
 *   HJ_DONE (0)          done.
 */
uint32_t hj_set_group(const hj_board *board, size_t board_words,
                      hj_mission *mission, size_t mission_words, uint32_t place,
                      uint32_t address, uint32_t send, uint32_t subscribed);

/*
 * Writes a path into a place of the mission, replacing what it held. The set
 * may be empty.
 *
 * Returns the first of these that holds, in this order:
 *   HJ_BAD_NUMBER (21)   not the right words, place is over 15, or the set
 *                        names a port that is over 7, or not set up for the
 *                        mission;
 *   HJ_WRONG_CLASS (25)  the path address is invalid (hj_path);
 *   HJ_BAD_CODE (24)     here is neither 0 nor 1;
 *   HJ_SAME_ENTRY (23)   another place has the same path address;
 *   HJ_DONE (0)          done.
 */
uint32_t hj_set_path(const hj_board *board, size_t board_words,
                     hj_mission *mission, size_t mission_words, uint32_t place,
                     uint32_t path, uint32_t send, uint32_t here);

/*
 * Each of these empties a place of the mission, which may be empty already. The
 * place is then as in a fresh state.
 *
 * Returns
 *   HJ_DONE (0)         done;
 *   HJ_BAD_NUMBER (21)  not the right words, or place is over 15.
 */
uint32_t hj_clear_group(hj_mission *mission, size_t mission_words,
                        uint32_t place);
uint32_t hj_clear_path(hj_mission *mission, size_t mission_words,
                       uint32_t place);

/* ---- Calls on a relay: datagrams ----------------------------------------- */

/*
 * Seconds and floods.
 *
 * A datagram with routing requirements 3 is flooded: a router sends it to every
 * other port once, and knows a copy that comes back by its pair. The pair is
 * the source, as four octets, and the timestamp, with its format and P-field;
 * destination, transport and data are no part of it. A mission holds up to
 * HJ_PAIRS pairs, each with the second in which it came. Only hj_sweep frees
 * them. Three hazards, and what a ground operator does about each:
 *   - A second that is too late. One hj_receive or hj_sweep with the second
 *     2^32 - 1 shuts out all that follow: any lower second gets HJ_SECOND_PAST,
 *     and only hj_fresh_mission ends that, at the cost of all that the mission
 *     holds. So bound the seconds before the call (hj_last_second says where
 *     the mission stands), and never take them from the wire.
 *   - No sweep. Once HJ_PAIRS pairs are held, every new flood gets
 *     HJ_PAIRS_HELD, for ever unless a sweep frees a place. So sweep regularly,
 *     with a lifetime as long as a flood lives in the net, and watch the
 *     counter HJ_PAIRS_HELD_COUNT.
 *   - Too short a lifetime. With 0, as on a fresh board, a sweep frees a pair
 *     that is a second old, and a copy that circles for longer is sent on
 *     again. So set the lifetime before the first sweep.
 */

/*
 * The verdict on one datagram that arrived on a port of the mission, which
 * hj_receive, below, gives too; that call says what is answered, counted and
 * written.
 */
hj_verdict hj_receive_at(const hj_board *board, size_t board_words,
                         hj_mission *mission, size_t mission_words,
                         const hj_record *routes, size_t route_count,
                         uint32_t port, uint16_t slot, uint32_t second,
                         const uint8_t *octets, size_t length, uint8_t *output,
                         size_t room);

/*
 * The verdicts on many datagrams that arrived on ports of the mission, a batch,
 * in one call: it saves a call for each, and looks at the addresses of the
 * ports once. Item i is a datagram of lengths[i] octets, and the items are laid
 * end to end in the octets, without gaps; what is lent beyond their sum is
 * ignored. It came by ports[i], its slot is slots[i] and its second seconds[i].
 *
 * Returns the first of these that holds, in this order:
 *   HJ_BAD_NUMBER (21)  route_count is over HJ_ROUTES;
 *   HJ_BAD_BATCH (27)   port_count, slot_count, second_count or answer_count is
 *                       not length_count; length_count is over HJ_MOST_ITEMS;
 *                       the lengths sum to more than octet_count (the sum never
 *                       wraps); or room is under HJ_OUTPUT_ROOM * length_count;
 *   HJ_DONE (0)         done; also where there is no item.
 * With 21 and 27 no item is heard: no second is accepted, and nothing is
 * counted or written.
 *
 * Else each item is heard in its turn as hj_receive_at hears a datagram, with
 * output of its own, and sees what those before it did. answers[i] is its
 * verdict. Its output is the HJ_OUTPUT_ROOM octets from HJ_OUTPUT_ROOM * i on
 * (hj_item_output), in which the header for port p stands at hj_header, as
 * hj_receive says; no other octet of the output is ever written. So answers,
 * output and state are those of single calls in the same order, which is
 * proved (docs/PROMISES.md, W-201).
 *
 * A refused item changes what it would by itself, and the next goes on: one
 * with HJ_NO_PORT or HJ_SECOND_PAST changes nothing, any other is counted.
 * Without the right words HJ_DONE is returned, and each item is HJ_NO_PORT. An
 * item of length 0 is HJ_SHORT, unless HJ_NO_PORT or HJ_SECOND_PAST comes
 * first. HJ_SHORT_OUTPUT is given to none.
 *
 * Three things to watch:
 *   - Nothing is taken while a batch is heard. Where more items go to a port
 *     than its queue has room for, the port drops the others. With queues that
 *     were emptied, a batch of HJ_QUEUE items drops none.
 *   - A second that is too late, in one item, shuts out those behind it that
 *     have a lower one (Seconds and floods, above).
 *   - The library keeps no octets. Leave the octets and the output alone until
 *     the slots are taken.
 *
 * hj_receive_batch, below, does the same with a hj_batch, which has the lists
 * and the output in it.
 */
uint32_t hj_receive_many(const hj_board *board, size_t board_words,
                         hj_mission *mission, size_t mission_words,
                         const hj_record *routes, size_t route_count,
                         const uint32_t *lengths, size_t length_count,
                         const uint32_t *ports, size_t port_count,
                         const uint16_t *slots, size_t slot_count,
                         const uint32_t *seconds, size_t second_count,
                         const uint8_t *octets, size_t octet_count,
                         hj_verdict *answers, size_t answer_count,
                         uint8_t *output, size_t room);

/*
 * Answers an echo request that arrived on a port of the mission: makes the
 * reply, which goes out by the route of the request's source. The octets begin
 * with the datagram; those beyond its length field are ignored. The slot is the
 * reply's, and not the request's.
 *
 * This is a call of its own, and no part of hj_receive. It counts nothing for
 * the request, delivers nothing and sends nothing on: the caller gives each
 * datagram to hj_receive too, and calls hj_echo where that says HJ_DELIVERED
 * and the transport is HJ_TP_SCMP. No second is asked for, and none is
 * accepted.
 *
 * Returns a hj_verdict. hj_ended_by is the first of these that holds, in this
 * order:
 *   HJ_BAD_NUMBER (21)    route_count is over HJ_ROUTES;
 *   HJ_NO_PORT (16)       not the right words, or port is over 7, not set up
 *                         or not the mission's;
 *   HJ_SHORT_OUTPUT (17)  room is under the MTU of the arrival port;
 *   HJ_DONE (0)           no refusal.
 * With HJ_DONE, hj_onward is
 *   HJ_NO_REPLY (0)       no reply is made (below);
 *   HJ_SENT_ON (1)        the port in hj_took took an entry for the reply;
 *   HJ_NO_ROUTE (11)      no route that is up for the request's source;
 *   HJ_TOO_BIG (14)       the reply as it would be sent is over the MTU of the
 *                         route's port, over HJ_MOST_LENGTH or over room;
 *   HJ_QUEUES_FULL (15)   the route's port dropped it: hj_dropped.
 * hj_local is 0.
 *
 * With a refusal and with HJ_NO_REPLY nothing is counted or written. Else a
 * reply was made, and counts one in HJ_OUT_REQUESTS, whether a port took it or
 * not; 11 and 14 count one in their own counters too, and 15 one in
 * HJ_OUT_DISCARDS. A reply never counts in HJ_FORW_DATAGRAMS.
 *
 * No reply is made
 *   - to a datagram that hj_receive would refuse by 1 to 8 or 28, or whose
 *     hj_local would not be HJ_DELIVERED;
 *   - where the transport is not HJ_TP_SCMP, or the message is not a request
 *     that hj_read_echo takes; so no reply is ever answered;
 *   - to a flood, and to a request without a source or without a hop count;
 *     one with hop count 0 or 1 is answered;
 *   - to one for an address of a multicast or broadcast class, or a broadcast
 *     of a port's subnet, unless it is a port's own address;
 *   - where the MTU of the arrival port is under the reply's header and
 *     HJ_REPLY_OCTETS;
 *   - while echo drop is on.
 *
 * The reply has the request's kind of address. It goes to the request's source,
 * and comes from the request's destination where a port of the mission has that
 * address, else from the arrival port's; so each relay on the way answers a
 * request with intermediate delivery under its own name. It has hop count 64
 * and, where the request has basic QOS, basic QOS with the same precedence, and
 * no other element; the route may ask for a checksum, and for four-octet
 * addresses by leading to another domain, as in hj_receive. There is no clock
 * here, so a reply has no timestamp of its own: it carries the request's, with
 * the request's hop count, the MTU of the arrival port, and a rate of 0. The
 * data are the request's, cut where the arrival port's MTU, by the header
 * before the route changes it, or HJ_MOST_DATA octets of user data would be
 * passed.
 *
 * With HJ_SENT_ON the first hj_reply_octets octets of the output are the whole
 * reply, header and message, as it goes out; no other octet is ever written.
 * The entry waits on the port like any other, with the request's precedence,
 * and hj_take hands it out. Five things to watch:
 *   - Lend more room than the arrival port's MTU, though that much is taken.
 *     The data are cut to that MTU before the route changes the header, and a
 *     route that widens the addresses or adds a checksum then makes the reply
 *     up to 8 octets longer. With room of the MTU alone every long request by
 *     such a route ends in HJ_TOO_BIG, while short ones are answered. So lend
 *     HJ_MOST_LENGTH octets, or the MTU and 8. Room cannot help where the MTU
 *     of the port by which the reply leaves is too small.
 *   - The library keeps no octets. Copy the reply out of the output, or leave
 *     that output alone, until its slot is taken.
 *   - A slot names a datagram that came and was sent on, or a reply. Keep the
 *     two apart, by slots of their own or by a note at each slot: a reply is
 *     sent as it stands, a copy as a header and the data behind it.
 *   - Echo drop is the board's. Set for the one mission's sake, it silences the
 *     other too, and silence looks like a cut link from the ground.
 *   - Replies take places in queues that orders wait in. Whoever may send
 *     requests may fill them, at the precedence that the requests say, so let
 *     tests be sent with a low one.
 */
hj_verdict hj_echo(const hj_board *board, size_t board_words,
                   hj_mission *mission, size_t mission_words,
                   const hj_record *routes, size_t route_count, uint32_t port,
                   uint16_t slot, const uint8_t *octets, size_t length,
                   uint8_t *output, size_t room);

/*
 * Frees exactly the pairs of the mission whose age is over the lifetime that
 * the board has. The age is this second less the second in which the pair came.
 * A freed place is used again. The second is accepted, and nothing else is
 * changed or counted.
 *
 * Returns the first of these that holds, in this order:
 *   HJ_BAD_NUMBER (21)   not the right words, of either;
 *   HJ_SECOND_PAST (29)  the second is under hj_last_second;
 *   HJ_DONE (0)          done.
 */
uint32_t hj_sweep(const hj_board *board, size_t board_words,
                  hj_mission *mission, size_t mission_words, uint32_t second);

/*
 * Takes the first entry of the mission that waits on a port: of the highest
 * precedence, and among those the one that entered first.
 *
 * Returns an answer: hj_slot and hj_precedence (0 to 15) are the entry's, or
 * hj_refusal is
 *   HJ_NO_PORT (16)          not the right words, or port is over 7, not set up
 *                            or not the mission's;
 *   HJ_NOTHING_WAITING (18)  nothing waits on the port.
 */
hj_answer hj_take(const hj_board *board, size_t board_words,
                  hj_mission *mission, size_t mission_words, uint32_t port);

/* ---- Calls on a relay: reading it ---------------------------------------- */

/*
 * The value of a counter of the mission, HJ_IN_RECEIVES to HJ_OUT_REQUESTS.
 *
 * Returns an answer: hj_value is the counter's value, 0 to 2^32 - 1, or
 * hj_refusal is
 *   HJ_BAD_NUMBER (21)  not the right words, or counter is over 17.
 */
hj_answer hj_counter(const hj_mission *mission, size_t mission_words,
                     uint32_t counter);

/*
 * How many entries of the mission wait on a port. Nothing waits on a port that
 * is not set up or not the mission's, unless the board was made fresh since.
 *
 * Returns an answer: hj_value is that number, 0 to HJ_QUEUE, or hj_refusal is
 *   HJ_BAD_NUMBER (21)  not the right words, or port is over 7.
 */
hj_answer hj_waiting(const hj_mission *mission, size_t mission_words,
                     uint32_t port);

/*
 * Whether the node is a router.
 *
 * Returns an answer: hj_value is 1 for a router, 0 for a host, or hj_refusal
 * is
 *   HJ_BAD_NUMBER (21)  not the right words.
 */
hj_answer hj_get_router(const hj_board *board, size_t board_words);

/*
 * The lifetime of floods, in seconds.
 *
 * Returns an answer: hj_value is the lifetime, 0 to 2^32 - 1, or hj_refusal is
 *   HJ_BAD_NUMBER (21)  not the right words.
 */
hj_answer hj_get_lifetime(const hj_board *board, size_t board_words);

/*
 * Whether echo drop is on.
 *
 * Returns an answer: hj_value is 1 where it is on, 0 where it is off, or
 * hj_refusal is
 *   HJ_BAD_NUMBER (21)  not the right words.
 */
hj_answer hj_get_echo_drop(const hj_board *board, size_t board_words);

/*
 * The last second that the mission accepted, by hj_receive, by an item of
 * hj_receive_many or by hj_sweep; 0 at first. A second under it is refused.
 *
 * Returns an answer: hj_value is that second, 0 to 2^32 - 1, or hj_refusal is
 *   HJ_BAD_NUMBER (21)  not the right words.
 */
hj_answer hj_last_second(const hj_mission *mission, size_t mission_words);

/*
 * One number of a place for a pair, 0 to HJ_PAIRS - 1, as it stands.
 * hj_get_pair, below, gives all of them. The words are
 *   0  the format: HJ_STAMP_NONE (0) where the place is free, else
 *      HJ_STAMP_IMPLICIT to HJ_STAMP_BINARY;
 *   1  the source, as four octets;
 *   2  the P-field * 2^24 + the part of the time field above its low 32 bits;
 *   3  the low 32 bits of the time field;
 *   4  the second in which it came.
 * In a free place all are 0. A new pair goes to the lowest free place.
 *
 * Returns an answer: hj_value is that number, or hj_refusal is
 *   HJ_BAD_NUMBER (21)  not the right words, place is not under HJ_PAIRS, or
 *                       word is not under HJ_PAIR_NUMBERS.
 */
hj_answer hj_pair_word(const hj_mission *mission, size_t mission_words,
                       uint32_t place, uint32_t word);

/*
 * Each of these gives one number of a port or a place as it stands: word is
 * its member's place in hj_port, hj_route, hj_group or hj_path_place, the
 * refusal not counted, so that 0 is `ready` or `filled`. hj_get_port and those
 * beside it, below, give all of them.
 *
 * Returns an answer: hj_value is that number, or hj_refusal is
 *   HJ_BAD_NUMBER (21)  route_count is over HJ_ROUTES, not the right words, no
 *                       such port or place, or word is not under
 *                       HJ_PORT_NUMBERS, HJ_ROUTE_NUMBERS, HJ_GROUP_NUMBERS or
 *                       HJ_PATH_NUMBERS.
 */
hj_answer hj_port_word(const hj_board *board, size_t board_words,
                       uint32_t port, uint32_t word);
hj_answer hj_route_word(const hj_record *routes, size_t route_count,
                        uint32_t place, uint32_t word);
hj_answer hj_group_word(const hj_mission *mission, size_t mission_words,
                        uint32_t place, uint32_t word);
hj_answer hj_path_word(const hj_mission *mission, size_t mission_words,
                       uint32_t place, uint32_t word);

/* The numbers of each. */
#define HJ_PORT_NUMBERS 5
#define HJ_ROUTE_NUMBERS 7
#define HJ_GROUP_NUMBERS 4
#define HJ_PATH_NUMBERS 4
#define HJ_PAIR_NUMBERS 5

/*
 * The route of the mission that an address takes: the one with most mask ones
 * among all that count, are the mission's, are up and match it. The address may
 * be of any class; whether a datagram to it would need a route at all is
 * another question.
 *
 * Returns a hj_found. hj_found_refusal is
 *   HJ_DONE (0)         hj_is_found is 1, and hj_found_place, hj_found_ones
 *                       and hj_found_port are the route's; or it is 0, as all
 *                       other parts are, and no route that is up matches;
 *   HJ_BAD_NUMBER (21)  route_count is over HJ_ROUTES, or not the right words;
 *                       all other parts are 0.
 */
hj_found hj_search(const hj_board *board, size_t board_words,
                   const hj_mission *mission, size_t mission_words,
                   const hj_record *routes, size_t route_count,
                   uint32_t address);

/* ---- The same calls, with structures ------------------------------------- */

/*
 * The library's calls take numbers and pointers alone. What follows is inline,
 * and only puts numbers into structures and takes them out again; hj_build_echo
 * and hj_batch_add also test that they fit.
 */

/* Two words as one number, and the words of a number, upper half first. */
static inline uint64_t hj_joined(const uint32_t *words)
{
    return (uint64_t)words[0] << 32 | words[1];
}

static inline void hj_halved(uint64_t number, uint32_t *words)
{
    words[0] = (uint32_t)(number >> 32);
    words[1] = (uint32_t)(number & 0xffffffffu);
}

/* The fields that HJ_FIELD_WORDS words hold. */
static inline hj_fields hj_unpack(const uint32_t *words)
{
    hj_fields fields;

    fields.destination_high = hj_joined(words);
    fields.destination_low = hj_joined(words + 2);
    fields.source_high = hj_joined(words + 4);
    fields.source_low = hj_joined(words + 6);
    fields.time = hj_joined(words + 8);
    fields.tp_id = words[10];
    fields.has_source = words[11];
    fields.extended = words[12];
    fields.ipv6 = words[13];
    fields.has_qos = words[14];
    fields.precedence = words[15];
    fields.routing = words[16];
    fields.program = words[17];
    fields.has_hop_count = words[18];
    fields.hop_count = words[19];
    fields.stamp_format = words[20];
    fields.p_field = words[21];
    fields.has_expanded = words[22];
    fields.expanded = words[23];
    fields.has_checksum = words[24];
    fields.intermediate = words[25];
    return fields;
}

/* The HJ_FIELD_WORDS words of the fields. */
static inline void hj_pack(const hj_fields *fields, uint32_t *words)
{
    hj_halved(fields->destination_high, words);
    hj_halved(fields->destination_low, words + 2);
    hj_halved(fields->source_high, words + 4);
    hj_halved(fields->source_low, words + 6);
    hj_halved(fields->time, words + 8);
    words[10] = fields->tp_id;
    words[11] = fields->has_source;
    words[12] = fields->extended;
    words[13] = fields->ipv6;
    words[14] = fields->has_qos;
    words[15] = fields->precedence;
    words[16] = fields->routing;
    words[17] = fields->program;
    words[18] = fields->has_hop_count;
    words[19] = fields->hop_count;
    words[20] = fields->stamp_format;
    words[21] = fields->p_field;
    words[22] = fields->has_expanded;
    words[23] = fields->expanded;
    words[24] = fields->has_checksum;
    words[25] = fields->intermediate;
}

/*
 * Reads the header at the start of the octets.
 *
 * Returns a hj_reading whose refusal is
 *   HJ_DONE (0)          the header is good: length, header and fields say
 *                        what it holds, and 4 <= header <= 50,
 *                        header <= length <= count;
 *   HJ_SHORT (1)         count is under 3, or the octets end inside the
 *                        control field;
 *   HJ_BAD_VERSION (2)   the version is not 001;
 *   HJ_BAD_FORM (4)      bit 21, 29 or 32, or one of 36 to 39, is 1; bit 22
 *                        is 0; IPv6 with extended or without a source;
 *   HJ_BAD_LENGTH (3)    the length field is over count or under the header's
 *                        own length;
 *   HJ_BAD_CHECKSUM (5)  the checksum is present and wrong.
 * The first that holds, in the order 1, 2, 1, 4, 3, 5, is given.
 * The octets are not changed. Of the octets beyond the length that the length
 * field gives, only those up to the end of the control field, five at most,
 * matter: they are tested before the length is. So 20 00 12 gives 3 and
 * 40 00 12 gives 2, though both say a length of 0.
 */
static inline hj_reading hj_read(const uint8_t *octets, size_t count)
{
    uint32_t words[HJ_READING_WORDS] = {0};
    hj_reading reading;

    reading.refusal = hj_read_words(octets, count, words, HJ_READING_WORDS);
    reading.length = words[0];
    reading.header = words[1];
    reading.reserved = 0;
    reading.fields = hj_unpack(words + 2);
    return reading;
}

/*
 * Builds the header of a datagram with data octets of user data, at the start
 * of the output: the shortest control field, unused bits zero, and the checksum
 * computed where it is requested.
 *
 * Returns an answer: hj_value is the header's length in octets, 4 to 50, or
 * hj_refusal is
 *   HJ_SHORT_OUTPUT (17)   room is under HJ_HEADER_ROOM;
 *   HJ_FIELD_RANGE (19)    a field is out of range, a member of an absent
 *                          element is not 0, or IPv6 is combined with
 *                          extended or has no source;
 *   HJ_DATA_TOO_LONG (20)  data is over HJ_MOST_DATA.
 * The first that holds, in this order, is given, and nothing is written.
 * Octets of the output after the header are never written.
 */
static inline hj_answer hj_build(hj_fields fields, size_t data, uint8_t *output,
                                 size_t room)
{
    uint32_t words[HJ_FIELD_WORDS];

    hj_pack(&fields, words);
    return hj_build_words(words, HJ_FIELD_WORDS, data, output, room);
}

/*
 * Reads an echo message into a hj_message.
 *
 * Returns its refusal:
 *   HJ_DONE (0)          the message is good, and the other members say what it
 *                        holds; its data are the octets from data_from on;
 *   HJ_SHORT (1)         count is under HJ_REQUEST_OCTETS, or under
 *                        HJ_REPLY_OCTETS where the type is HJ_ECHO_REPLY;
 *   HJ_BAD_FORM (4)      the type is neither HJ_ECHO_REQUEST nor HJ_ECHO_REPLY,
 *                        or the code is not 0;
 *   HJ_BAD_CHECKSUM (5)  the checksum is wrong.
 * The first that holds, in the order 1 (under HJ_REQUEST_OCTETS), 4, 1, 5, is
 * given.
 */
static inline uint32_t hj_read_echo(const uint8_t *message, size_t count,
                                    hj_message *found)
{
    uint32_t words[HJ_MESSAGE_WORDS] = {0};

    found->refusal = hj_read_echo_words(message, count, words,
                                        HJ_MESSAGE_WORDS);
    found->type = words[0];
    found->identifier = words[1];
    found->sequence = words[2];
    found->data_from = words[3];
    found->hop_count = words[4];
    found->format = words[5];
    found->stamp = hj_joined(words + 6);
    found->mtu = words[8];
    found->rate = words[9];
    found->reserved = 0;
    return found->refusal;
}

/*
 * Builds the echo message that a hj_message says, at the start of the output,
 * as hj_build_request or hj_build_reply does, by its type. refusal, data_from
 * and reserved are not looked at, nor are, in a request, hop_count and the
 * others that only a reply has; so a message that was read can be built again.
 *
 * Returns an answer: hj_value is the octets of the message, or hj_refusal is
 *   HJ_BAD_FORM (4)        the type is neither HJ_ECHO_REQUEST nor
 *                          HJ_ECHO_REPLY;
 *   HJ_FIELD_RANGE (19)    identifier or sequence is over 65535, or in a reply
 *                          hop_count or format over 255;
 *   HJ_SHORT_OUTPUT (17)   room is under the octets of the message;
 *   HJ_DATA_TOO_LONG (20)  the message has over HJ_MOST_DATA octets.
 * The first that holds, in this order, is given, and nothing is written.
 * Octets of the output after the message are never written.
 */
static inline hj_answer hj_build_echo(const hj_message *message,
                                      const uint8_t *data, size_t data_octets,
                                      uint8_t *output, size_t room)
{
    const hj_answer out_of_range = (hj_answer)HJ_FIELD_RANGE << 32;
    uint16_t identifier = (uint16_t)message->identifier;
    uint16_t sequence = (uint16_t)message->sequence;

    if (message->type != HJ_ECHO_REQUEST && message->type != HJ_ECHO_REPLY)
        return (hj_answer)HJ_BAD_FORM << 32;
    if (message->identifier > 0xffffu || message->sequence > 0xffffu)
        return out_of_range;
    if (message->type == HJ_ECHO_REQUEST)
        return hj_build_request(identifier, sequence, data, data_octets,
                                output, room);
    if (message->hop_count > 0xffu || message->format > 0xffu)
        return out_of_range;
    return hj_build_reply(identifier, sequence, (uint8_t)message->hop_count,
                          (uint8_t)message->format, message->stamp,
                          message->mtu, message->rate, data, data_octets,
                          output, room);
}

/*
 * The verdict on one datagram that arrived on a port of the mission. The octets
 * begin with the datagram; those beyond its length field are ignored. The
 * output is room octets.
 *
 * Returns a hj_verdict. hj_ended_by is the first of these that holds, in this
 * order:
 *   HJ_BAD_NUMBER (21)    route_count is over HJ_ROUTES;
 *   HJ_NO_PORT (16)       not the right words, or port is over 7, not set up
 *                         or not the mission's;
 *   HJ_SHORT_OUTPUT (17)  room is under HJ_OUTPUT_ROOM, however many ports are
 *                         set up;
 *   HJ_SECOND_PAST (29)   arrival.second is under hj_last_second;
 *   HJ_SHORT (1), HJ_BAD_VERSION (2), HJ_BAD_FORM (4), HJ_BAD_LENGTH (3),
 *   HJ_BAD_CHECKSUM (5)   as hj_read gives them;
 *   HJ_NOT_CARRIED (8)    routing requirements 1 or 2, or IPv6 addresses;
 *   HJ_NO_DOMAIN (7)      one-octet addresses, and the arrival port's address
 *                         does not begin with 10;
 *   HJ_BAD_ADDRESS (6)    the destination or the path is invalid, or a source
 *                         is present and not unicast;
 *   HJ_FLOOD_UNMARKED (28)  routing requirements 3, and no source or no
 *                         timestamp, on a host too;
 *   HJ_DONE (0)           no refusal.
 * With 21, 16, 17 and 29 the mission's state is unchanged. Every other outcome,
 * whatever it is, leaves the second accepted and counts one in HJ_IN_RECEIVES,
 * and a refusal also one in its own counter.
 *
 * With HJ_DONE, hj_local is
 *   HJ_LOCAL_NO (0)        not delivered;
 *   HJ_DELIVERED (1)       delivered: the caller hands it to its transport;
 *   HJ_UNKNOWN_TP_ID (26)  it would be, but its transport is not assigned;
 * and hj_onward is
 *   HJ_NOT_ASKED (0)       it need not be forwarded;
 *   HJ_SENT_ON (1)         hj_took are the ports that took an entry, at least
 *                          one, and hj_dropped those that dropped their copy;
 *   HJ_NOT_FOR_US (9)      the node is a host, and it is not for it;
 *   HJ_HOPS_USED_UP (10)   ports are wanted, and the hop count is 0 or 1;
 *   HJ_NO_ROUTE (11)       no route that is up, no group or no path for it;
 *                          or no port in the set of the group or path but the
 *                          arrival port, and HJ_NOT_ASKED does not hold
 *                          (below); or a flood, and no other port is set up;
 *   HJ_LEAVES_DOMAIN (13)  a one-octet path, and every port wanted is in
 *                          another domain;
 *   HJ_TOO_BIG (14)        at every port left, the copy as it would be sent is
 *                          over the port's MTU or over HJ_MOST_LENGTH;
 *   HJ_QUEUES_FULL (15)    every port left dropped its copy: hj_dropped;
 *   HJ_PAIRS_HELD (30)     a flood with a new pair, and all HJ_PAIRS places are
 *                          held.
 * HJ_NOT_ASKED is given for a port's own address and the limited broadcast; on
 * a host, where hj_local is not HJ_LOCAL_NO; on a router for a flood whose pair
 * is held; and for what is not flooded where it is a broadcast of a port's
 * network, or for a group subscribed on the arrival port, and no other port is
 * set up, or where it goes by a path that is delivered here and has no port in
 * its set but the arrival port. HJ_LOCAL_NO and HJ_NOT_ASKED together are given
 * for a held pair alone. Ports, groups, paths and routes are those of the
 * mission throughout.
 *
 * A flooded datagram (routing requirements 3) has the local half of any other,
 * a repeat too. Onward, on a router, it has a rule of its own:
 *   - where its pair is held, or it is for a port's own address or the limited
 *     broadcast, HJ_NOT_ASKED, and no pair is kept;
 *   - else, where all places are held, HJ_PAIRS_HELD, and no pair is kept;
 *   - else the pair is kept with the second, and stays whatever follows, and
 *     every other port that is set up is wanted, whatever the class of the
 *     destination.
 * A repeat makes no pair younger. On a host no pair is looked up or kept.
 *
 * With HJ_SENT_ON the header for each port in hj_took stands at hj_header and
 * is hj_header_octets octets long. No other octet of the output is ever
 * written. The copy to send is this header and behind it the data, the octets
 * of the datagram from hj_data_from up to what its length field says. A header
 * is one of two:
 *   - kept: the arriving header, as long as it was, with the hop count one
 *     lower and the checksum recomputed, where present;
 *   - rewritten, for the ports in hj_rewritten: one of hj_rewritten_octets
 *     octets as hj_build writes it, with the length field of the copy.
 * It is rewritten for a port in another domain, where the addresses have one
 * octet: they then have four, filled in from the arrival port. And it is
 * rewritten where the route that the destination takes asks for a checksum or
 * a hop count that is not there (HJ_CAPABLE_CHECKSUM and the others). A
 * broadcast of a port's network, a group, a path or a flood takes no route, and
 * nothing is added to its copies. An added hop count is 64; one that was there
 * is one lower. A port is in another domain where the first three octets of its
 * address are not those of the arrival port's.
 *
 * A datagram without a hop count may circle between relays for ever, where
 * their routes lead round a ring; one with one-octet addresses too, since these
 * no longer keep it in its domain. Let the routes to other relays ask for a hop
 * count (HJ_CAPABLE_HOP_COUNT or HJ_CAPABLE_BOTH). For groups and broadcasts,
 * which take no route, only the sender can give one. A flood ends at the relays
 * that hold its pair.
 */
static inline hj_verdict hj_receive(const hj_board *board, size_t board_words,
                                    hj_mission *mission, size_t mission_words,
                                    const hj_record *routes,
                                    size_t route_count, hj_arrival arrival,
                                    const uint8_t *octets, size_t length,
                                    uint8_t *output, size_t room)
{
    return hj_receive_at(board, board_words, mission, mission_words, routes,
                         route_count, arrival.port, arrival.slot,
                         arrival.second, octets, length, output, room);
}

/*
 * Adds an item to the lists of a batch, behind those that it has: how the
 * datagram arrived, and how many octets it has. The octets themselves it does
 * not take: the caller lays them behind those of the items before it, and lends
 * all of them to hj_receive_batch. To fill a batch again, set its items to 0.
 *
 * Returns
 *   HJ_DONE (0)        done;
 *   HJ_BAD_BATCH (27)  the batch has HJ_MOST_ITEMS items, and nothing changes.
 */
static inline uint32_t hj_batch_add(hj_batch *batch, hj_arrival arrival,
                                    uint32_t length)
{
    if (batch->items >= HJ_MOST_ITEMS)
        return HJ_BAD_BATCH;
    batch->lengths[batch->items] = length;
    batch->ports[batch->items] = arrival.port;
    batch->slots[batch->items] = arrival.slot;
    batch->seconds[batch->items] = arrival.second;
    batch->items++;
    return HJ_DONE;
}

/*
 * The verdicts on the items of a batch, as hj_receive_many gives them: they are
 * in its answers, the headers in its output. The octets are those of all items,
 * laid end to end.
 *
 * Returns the first of these that holds, in this order:
 *   HJ_BAD_NUMBER (21)  route_count is over HJ_ROUTES;
 *   HJ_BAD_BATCH (27)   the batch says more than HJ_MOST_ITEMS items, or its
 *                       lengths sum to more than octet_count;
 *   HJ_DONE (0)         done.
 */
static inline uint32_t hj_receive_batch(const hj_board *board,
                                        size_t board_words,
                                        hj_mission *mission,
                                        size_t mission_words,
                                        const hj_record *routes,
                                        size_t route_count, hj_batch *batch,
                                        const uint8_t *octets,
                                        size_t octet_count)
{
    int fits = batch->items <= HJ_MOST_ITEMS;
    size_t items = fits ? batch->items : HJ_MOST_ITEMS;
    size_t room = fits ? HJ_OUTPUT_ROOM * items : 0; /* none: that is 27 */

    return hj_receive_many(board, board_words, mission, mission_words, routes,
                           route_count, batch->lengths, items, batch->ports,
                           items, batch->slots, items, batch->seconds, items,
                           octets, octet_count, batch->answers, items,
                           batch->output, room);
}

/*
 * Each of these reads a port or a place back, as it stands.
 *
 * Returns a structure whose refusal is
 *   HJ_DONE (0)         the other numbers are what it holds, all 0 where the
 *                       port is not set up, the place of a group or a path is
 *                       empty or that of a pair is free; a record of the list
 *                       is given as it stands, an empty one too;
 *   HJ_BAD_NUMBER (21)  route_count is over HJ_ROUTES, not the right words, or
 *                       no such port or place.
 */
static inline hj_port hj_get_port(const hj_board *board, size_t board_words,
                                  uint32_t port)
{
    hj_answer ready = hj_port_word(board, board_words, port, 0);
    hj_port found;

    found.refusal = hj_refusal(ready);
    found.ready = hj_value(ready);
    found.address = hj_value(hj_port_word(board, board_words, port, 1));
    found.mask = hj_value(hj_port_word(board, board_words, port, 2));
    found.mtu = hj_value(hj_port_word(board, board_words, port, 3));
    found.mission = hj_value(hj_port_word(board, board_words, port, 4));
    return found;
}

static inline hj_route hj_get_route(const hj_record *routes,
                                    size_t route_count, uint32_t place)
{
    size_t count = route_count;
    hj_answer filled = hj_route_word(routes, count, place, 0);
    hj_route found;

    found.refusal = hj_refusal(filled);
    found.filled = hj_value(filled);
    found.prefix = hj_value(hj_route_word(routes, count, place, 1));
    found.mask = hj_value(hj_route_word(routes, count, place, 2));
    found.port = hj_value(hj_route_word(routes, count, place, 3));
    found.availability = hj_value(hj_route_word(routes, count, place, 4));
    found.capabilities = hj_value(hj_route_word(routes, count, place, 5));
    found.mission = hj_value(hj_route_word(routes, count, place, 6));
    return found;
}

static inline hj_group hj_get_group(const hj_mission *mission,
                                    size_t mission_words, uint32_t place)
{
    size_t words = mission_words;
    hj_answer filled = hj_group_word(mission, words, place, 0);
    hj_group found;

    found.refusal = hj_refusal(filled);
    found.filled = hj_value(filled);
    found.address = hj_value(hj_group_word(mission, words, place, 1));
    found.send = hj_value(hj_group_word(mission, words, place, 2));
    found.subscribed = hj_value(hj_group_word(mission, words, place, 3));
    return found;
}

static inline hj_path_place hj_get_path(const hj_mission *mission,
                                        size_t mission_words, uint32_t place)
{
    size_t words = mission_words;
    hj_answer filled = hj_path_word(mission, words, place, 0);
    hj_path_place found;

    found.refusal = hj_refusal(filled);
    found.filled = hj_value(filled);
    found.path = hj_value(hj_path_word(mission, words, place, 1));
    found.send = hj_value(hj_path_word(mission, words, place, 2));
    found.here = hj_value(hj_path_word(mission, words, place, 3));
    return found;
}

static inline hj_pair hj_get_pair(const hj_mission *mission,
                                  size_t mission_words, uint32_t place)
{
    size_t words = mission_words;
    hj_answer format = hj_pair_word(mission, words, place, 0);
    uint32_t upper = hj_value(hj_pair_word(mission, words, place, 2));
    uint32_t lower = hj_value(hj_pair_word(mission, words, place, 3));
    hj_pair found;

    found.refusal = hj_refusal(format);
    found.format = hj_value(format);
    found.source = hj_value(hj_pair_word(mission, words, place, 1));
    found.p_field = upper >> 24;
    found.time = (uint64_t)(upper & 0xffffffu) << 32 | lower;
    found.second = hj_value(hj_pair_word(mission, words, place, 4));
    found.reserved = 0;
    return found;
}

#ifdef __cplusplus
}
#endif

#endif
