/*
 * call.h: a call of the soak, and its answer in one form for both sides.
 *
 * An answer is a row of numbers, the refusal first and what the call does not
 * say left 0, so that two answers are compared and a refused one is looked at
 * without knowing which call it was.
 */
#ifndef CALL_H
#define CALL_H

#include <stdbool.h>
#include <stddef.h>
#include <stdint.h>

#include "harpjuniper.h"
#include "shared/calls.h"
#include "shared/datagram.h"

#define SOAK_PARTS 24
#define SOAK_MOST_ROOM 500
#define SOAK_MOST_OUTPUT 29000 /* room for a batch, which is the most */
#define SOAK_MOST_OCTETS 30000 /* of a batch, likewise */
#define SOAK_MOST_WORDS 2000
#define SOAK_MOST_RECORDS 1024
#define SOAK_MOST_LISTED 72 /* of a list of a batch */

/* The lists that a batch is lent; the answers are written. */
enum soak_list {
    LIST_LENGTHS,
    LIST_PORTS,
    LIST_SLOTS,
    LIST_SECONDS,
    LIST_ANSWERS,
    SOAK_LISTS
};

struct soak_batch {
    size_t counts[SOAK_LISTS];
    uint32_t lengths[SOAK_MOST_LISTED];
    uint32_t ports[SOAK_MOST_LISTED];
    uint16_t slots[SOAK_MOST_LISTED];
    uint32_t seconds[SOAK_MOST_LISTED];
};

struct soak_call {
    enum call which;
    uint32_t numbers[CALL_MOST_NUMBERS]; /* in the order of its arguments */
    uint32_t mission;                    /* whose state is lent */
    size_t board_words;                  /* of what is lent */
    size_t mission_words;
    size_t records;
    size_t room;                         /* of the output */
    size_t data;                         /* of a header that is built */
    hj_fields fields;                    /* likewise */
    struct soak_batch batch;             /* of hj_receive_many alone */
    size_t count;
    uint8_t octets[SOAK_MOST_OCTETS];
};

/* Whether the words lent are as many as they should be. */
static inline bool soak_words_right(const struct soak_call *call)
{
    enum call_lent lent = call_facts[call->which].lent;

    return ((lent & LENT_B) == 0 || call->board_words == HJ_BOARD_WORDS) &&
           ((lent & LENT_M) == 0 || call->mission_words == HJ_MISSION_WORDS);
}

static inline bool soak_list_too_long(const struct soak_call *call)
{
    return (call_facts[call->which].lent & LENT_R) != 0 &&
           call->records > HJ_ROUTES;
}

struct soak_answer {
    uint64_t parts[SOAK_PARTS];
    hj_verdict items[HJ_MOST_ITEMS]; /* of a batch that is not refused */
};

/* The parts of a verdict, behind the refusal. */
enum {
    TOLD_LOCAL = 1,
    TOLD_ONWARD,
    TOLD_TOOK,
    TOLD_DROPPED,
    TOLD_DATA_FROM,
    TOLD_REWRITTEN_OCTETS,
    TOLD_REWRITTEN,
    TOLD_REPLY_OCTETS /* of a reply alone, in the place of the last three */
};

/* Where the words have what: ports, the lifetime and echo drop on the board,
 * the others in a mission's state, whose first word is its number. */
enum {
    SOAK_PORTS_AT = 1,
    SOAK_PORT_WORDS = 5,
    SOAK_LIFETIME_AT = 41,
    SOAK_ECHO_DROP_AT = 42,
    SOAK_GROUPS_AT = 1,
    SOAK_PATHS_AT = 65,
    SOAK_QUEUES_AT = 129,
    SOAK_QUEUE_WORDS = HJ_QUEUE + 1,
    SOAK_COUNTERS_AT = 393,
    SOAK_LAST_SECOND_AT = 411,
    SOAK_PAIRS_AT = 412
};

#endif
