/*
 * batches.c: what was reached of batches. Why one is refused is not in the
 * answer: each reason is told from its lists by itself, and a row counts a line
 * for which it is the only one. What an item found that items before it had
 * done is told by the mission's view as the batch found it. The lists are in
 * batch_lists.h.
 */
#include "batches.h"

#include <stdio.h>

#include "batch_lists.h"
#include "shared/answered.h"
#include "table.h"

static struct batch batch;

/* ---- Conditions ---------------------------------------------------------- */

static uint32_t faults_of(const struct items_lent *lent)
{
    uint32_t faults = 0;

    faults |= lent->ports != lent->lengths ? OTHER_PORTS : 0;
    faults |= lent->slots != lent->lengths ? OTHER_SLOTS : 0;
    faults |= lent->seconds != lent->lengths ? OTHER_SECONDS : 0;
    faults |= lent->lengths > TRACE_MOST_ITEMS ? TOO_MANY : 0;
    faults |= lent->sum > lent->octets ? SUM_OVER : 0;
    return faults | (lent->room < 400 * lent->lengths ? SHORT_ROOM : 0);
}

/* Whether the pair is held now, and was not before the batch. */
static bool held_by_item(const struct view *v, const struct batch *b,
                         const struct receipt *r)
{
    size_t place;

    if (r->pair == NULL || !r->pair->held)
        return false;
    place = (size_t)(r->pair - view_now(v)->pairs);
    return place >= b->before.kept || !b->before.pairs[place].held;
}

/* ---- Tallies ------------------------------------------------------------- */

#define NAME(name, condition) name,
#define COUNT(name, condition) *reached++ += (condition) ? 1 : 0;

static const char *const BATCH_NAMES[] = {BATCH_LIST(NAME)};
static const char *const ITEM_NAMES[] = {ITEM_LIST(NAME)};

static struct {
    uint64_t items;
    uint64_t of_batch[LENGTH(BATCH_NAMES)];
    uint64_t of_item[LENGTH(ITEM_NAMES)];
} tally;

bool count_batch(const struct view *v, const struct trace_call *call,
                 const struct trace_call *answer)
{
    const struct batch *b = &batch;
    uint64_t *reached = tally.of_batch;

    batch.refusal = (uint32_t)answered_number(UINT32_MAX, answer->words[0]);
    if (!items_lend(call, &batch.lent))
        return false;
    batch.faults = faults_of(&batch.lent);
    batch.at = 0;
    batch.before = *view_now(v);
    batch.was_refused = false;
    batch.was_sought = false;
    BATCH_LIST(COUNT)
    return batch.refusal == 21 || (batch.refusal == 27) == (batch.faults != 0);
}

void count_item(const struct view *v, const struct receipt *r)
{
    const struct batch *b = &batch;
    uint64_t *reached = tally.of_item;

    ITEM_LIST(COUNT)
    tally.items++;
    batch.at++;
    batch.since++;
    batch.was_refused = r->refusal != 0;
    if (BY_ROUTE) {
        batch.was_sought = true;
        batch.sought = r->named.destination;
        batch.since = 0;
    }
}

void say_batches(void)
{
    puts("Batches:");
    say_list(BATCH_NAMES, tally.of_batch, LENGTH(BATCH_NAMES));
    say_row("items", tally.items, LEAST);
    say_list(ITEM_NAMES, tally.of_item, LENGTH(ITEM_NAMES));
}
