/*
 * words_pairs.c: the word pairs. It asks for each place and sorts what is held,
 * since which place holds what is the library's affair and no part of the form.
 *
 * The awkward case is a number that the answer has no place for: a free place
 * that is not all zeros, or a time with more bits than its octets show. The
 * library promises 0 there, and ` !` says where it is not.
 */
#include "words.h"

#include <stdlib.h>

#include "harpjuniper.h"
#include "lent_relay.h"
#include "stamp.h"

/* -1, 0 or 1. */
static int order(uint64_t one, uint64_t other)
{
    return (one > other) - (one < other);
}

/* By source, format and timestamp. The octets of two timestamps of one format
 * compare as their P-fields do, and then, being as many, as their times. */
static int by_pair(const void *left, const void *right)
{
    const hj_pair *one = (const hj_pair *)left;
    const hj_pair *other = (const hj_pair *)right;

    if (one->source != other->source)
        return order(one->source, other->source);
    if (one->format != other->format)
        return order(one->format, other->format);
    if (one->p_field != other->p_field)
        return order(one->p_field, other->p_field);
    return order(one->time, other->time);
}

/* Whether the answer shows every number of the pair. */
static bool shows_all(const hj_pair *pair)
{
    unsigned octets = stamp_time_octets(pair->format, pair->p_field);
    bool has_p_field = pair->format == HJ_STAMP_EXPLICIT;

    if (pair->refusal != HJ_DONE || pair->format > HJ_STAMP_BINARY)
        return false;
    if (pair->format == HJ_STAMP_NONE)
        return (pair->source | pair->p_field | pair->time | pair->second) == 0;
    return pair->time >> 8 * octets == 0 && (has_p_field || !pair->p_field);
}

static void add_pair(struct text *answer, const hj_pair *pair)
{
    if (answer->used > 0)
        text_string(answer, ",");
    text_digits(answer, pair->source, 8);
    text_string(answer, ":");
    text_number(answer, pair->format);
    text_string(answer, ":");
    stamp_add(answer, pair->format, pair->p_field, pair->time);
    text_string(answer, ":");
    text_number(answer, pair->second);
}

/* The pairs that are held, `-` for none; whether they were shown whole. */
static bool add_pairs(struct text *answer, const hj_mission *mission,
                      size_t mission_words)
{
    hj_pair held[HJ_PAIRS];
    size_t count = 0;
    bool whole = true;

    for (uint32_t place = 0; place < HJ_PAIRS; place++) {
        hj_pair pair = hj_get_pair(mission, mission_words, place);

        whole = whole && shows_all(&pair);
        if (pair.format != HJ_STAMP_NONE)
            held[count++] = pair;
    }
    qsort(held, count, sizeof *held, by_pair);
    for (size_t i = 0; i < count; i++)
        add_pair(answer, &held[i]);
    if (count == 0)
        text_string(answer, "-");
    return whole;
}

bool answer_pairs(const struct trace_word *arguments, struct text *answer)
{
    const struct library_lent *lent;
    uint32_t mission;

    if (!trace_mission(arguments[0], &mission))
        return false;
    lent = lent_relay(mission);
    if (!add_pairs(answer, lent->mission, lent->mission_words))
        text_string(answer, " !");
    lent_relay_answer(answer, LENT_NONE);
    return true;
}
