/*
 * table.h: what was run. The sorts of states are those of a history, which
 * plain lives through too; those with a few words changed; garbage.
 */
#ifndef TABLE_H
#define TABLE_H

#include <stdbool.h>

#include "call.h"

enum soak_state { SOAK_HISTORY, SOAK_CHANGED, SOAK_GARBAGE, SOAK_STATES };

/* The headers of a datagram that was sent on. */
enum soak_sent { SENT_KEPT, SENT_REWRITTEN, SENT_IN_TWO_FORMS, SOAK_SENT };

static inline enum soak_sent soak_sent_as(const struct soak_answer *answer)
{
    uint64_t rewritten = answer->parts[TOLD_REWRITTEN];

    if (rewritten == 0)
        return SENT_KEPT;
    return rewritten == answer->parts[TOLD_TOOK] ? SENT_REWRITTEN
                                                 : SENT_IN_TWO_FORMS;
}

/* Every length up to these is to be met. */
#define MOST_BOARDS 100
#define MOST_MISSIONS 745
#define MOST_LISTS 530
#define MOST_LISTED 70 /* of a list of a batch */

struct soak_tally {
    uint64_t calls;
    uint64_t made[CALLS];
    uint64_t wrong_made[CALLS]; /* of them on a wrong number of words */
    /* Calls by the words that were lent, where they were wrong, and by the
     * records. */
    uint64_t wrong_boards[SOAK_MOST_WORDS + 1];
    uint64_t wrong_missions[SOAK_MOST_WORDS + 1];
    uint64_t lists[SOAK_MOST_RECORDS + 1];
    uint64_t listed[SOAK_LISTS][SOAK_MOST_LISTED + 1]; /* of a batch */
    uint64_t states[SOAK_STATES];   /* made, of each sort */
    uint64_t calls_on[SOAK_STATES]; /* on the right words */
    uint64_t ledgers;               /* ports whose ledger closed */
    /* Calls on the right words, or on none, that ended in each number; the
     * onward halves of the verdicts beside them. */
    uint64_t ends[CALLS][CALL_NUMBERS];
    uint64_t onward[CALL_NUMBERS];
    uint64_t replies[CALL_NUMBERS]; /* what became of echo requests */
    uint64_t sent[SOAK_SENT]; /* datagrams, by their headers */
    uint64_t items;           /* heard in batches, on the right words */
    uint64_t item_ends[CALL_NUMBERS]; /* that they ended in */
    uint64_t batches_heard;   /* that had an item */
    uint64_t refused_between; /* of them, with a refused one between others */
    uint64_t found[2]; /* searches in histories, without a route and with one */
    uint64_t over[2];  /* of them, where a longer one that is not up matches */
    uint64_t floods_kept; /* floods whose pair was kept */
    uint64_t floods_held; /* those that were held, delivered ones left out */
    uint64_t swept[2];    /* sweeps that freed nothing, and something */
};

/* The call in a line. */
void soak_say_call(const struct soak_call *call);
void soak_say_tally(const struct soak_tally *tally);
/* Whether the run met all that a run is to meet. */
bool soak_is_whole(const struct soak_tally *tally);

#endif
