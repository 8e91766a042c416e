/*
 * items.c: cutting an answered `batch` line into `receive` lines. The words of
 * an item are pieces of the line, as all words are; only its room, and the `-`
 * for no octets, stand nowhere in it.
 *
 * The awkward case is a line that looks like a batch that was heard, and whose
 * lists or octets do not go with its answer: it has no items then, and is no
 * good.
 */
#include "items.h"

#include <string.h>

/* Where the words of a `batch` line stand. */
enum { ALL_ROOM = 1, LENGTHS, PORTS, SLOTS, SECONDS, OCTETS, MISSION };

/* Words of an item's answer, the `/` before them counted. */
#define ANSWERS 6
#define ITEM_ROOM 400

static const struct trace_word RECEIVE = {"receive", 7};
static const struct trace_word ROOM = {"400", 3};
static const struct trace_word NONE = {"-", 1};

/* The next octets, so many, off those that are left. */
static bool next_octets(struct trace_word *left, struct trace_word length,
                        struct trace_word *octets)
{
    uint64_t count;

    if (!trace_number(length, left->length / 2, &count))
        return false;
    octets->text = left->text;
    octets->length = 2 * (size_t)count;
    left->text += octets->length;
    left->length -= octets->length;
    if (count == 0)
        *octets = NONE;
    return true;
}

/* The line of the next item: off each list, and off the octets. */
static bool next_item(struct trace_call *left, struct trace_call *item)
{
    struct trace_word length;

    item->count = 7;
    item->words[0] = RECEIVE;
    item->words[3] = ROOM;
    item->words[6] = left->words[MISSION];
    return trace_next(&left->words[LENGTHS], &length) &&
           trace_next(&left->words[PORTS], &item->words[1]) &&
           trace_next(&left->words[SLOTS], &item->words[2]) &&
           trace_next(&left->words[SECONDS], &item->words[5]) &&
           next_octets(&left->words[OCTETS], length, &item->words[4]);
}

static bool next_answer(const struct trace_call *answer, size_t at,
                        struct trace_call *told)
{
    told->count = ANSWERS - 1;
    memcpy(told->words, answer->words + at + 1,
           told->count * sizeof *told->words);
    return trace_is(answer->words[at], "/");
}

bool items_each(const struct trace_call *batch,
                const struct trace_call *answer, answered_line *known)
{
    struct trace_call left = *batch, item, told;
    struct trace_word more;
    bool is_empty = trace_is(batch->words[LENGTHS], "-");

    if (trace_is(batch->words[OCTETS], "-"))
        left.words[OCTETS].length = 0;
    if (!trace_is(answer->words[0], "0"))
        return answer->count == 1;
    if (answer->count % ANSWERS != 1 || (answer->count == 1) != is_empty)
        return false;
    for (size_t at = 1; at < answer->count; at += ANSWERS) {
        if (!next_item(&left, &item) || !next_answer(answer, at, &told) ||
            !known(CALL_RECEIVE, &item, &told))
            return false;
    }
    return is_empty || !trace_next(&left.words[LENGTHS], &more);
}

bool items_lend(const struct trace_call *batch, struct items_lent *lent)
{
    static uint32_t numbers[TRACE_MOST_LISTED];
    const struct trace_word *words = batch->words;

    if (!trace_list(words[PORTS], UINT32_MAX, numbers, &lent->ports) ||
        !trace_list(words[SLOTS], UINT32_MAX, numbers, &lent->slots) ||
        !trace_list(words[SECONDS], UINT32_MAX, numbers, &lent->seconds) ||
        !trace_list(words[LENGTHS], UINT32_MAX, numbers, &lent->lengths))
        return false;
    lent->sum = 0;
    for (size_t i = 0; i < lent->lengths; i++)
        lent->sum += numbers[i];
    lent->octets = trace_is(words[OCTETS], "-") ? 0 : words[OCTETS].length / 2;
    lent->room = (size_t)answered_number(UINT32_MAX, words[ALL_ROOM]);
    return true;
}

bool items_fit(const struct items_lent *lent)
{
    return lent->ports == lent->lengths && lent->slots == lent->lengths &&
           lent->seconds == lent->lengths &&
           lent->lengths <= TRACE_MOST_ITEMS && lent->sum <= lent->octets &&
           lent->room >= ITEM_ROOM * lent->lengths;
}
