/*
 * Seconds and pairs. A place is free where its format is 0, "no timestamp",
 * which no pair has.
 *
 * A P-field tells how many octets follow it, and the other formats have a
 * fixed number of them. So format, P-field and the octets as one number are
 * equal exactly where the octets are, and no octets need be stored.
 *
 * The awkward cases: a held pair may stand behind a free place, so every place
 * is looked at before one is filled; and second and lifetime are added in 64
 * bits, since their sum may pass 2^32.
 */
#include "plain_pairs.h"

#include <string.h>

#include "plain_header.h"

plain_refusal plain_second_accept(plain_mission *mission, uint32_t second)
{
    if (second < mission->last_second)
        return PLAIN_SECOND_PAST;
    mission->last_second = second;
    return PLAIN_GOOD;
}

/* The second of arrival is no part of what a pair is known by. */
static bool same_pair(const plain_pair *one, const plain_pair *other)
{
    return one->source.bits == other->source.bits &&
           one->format == other->format && one->p_field == other->p_field &&
           one->time == other->time;
}

/* Number by number, and not as a whole: the octets between them stay zero, so
 * that missions which hold the same in the same places are the same octets. */
static void fill(plain_pair *place, const plain_pair *pair)
{
    place->format = pair->format;
    place->source = pair->source;
    place->p_field = pair->p_field;
    place->time = pair->time;
    place->second = pair->second;
}

plain_pair_fate plain_pairs_enter(plain_mission *mission,
                                  const plain_pair *pair)
{
    plain_pair *lowest = NULL;

    for (size_t at = 0; at < PLAIN_PAIRS; at++) {
        plain_pair *place = &mission->pairs[at];

        if (same_pair(place, pair))
            return PLAIN_PAIR_KNOWN;
        if (lowest == NULL && place->format == PLAIN_STAMP_NONE)
            lowest = place;
    }
    if (lowest == NULL)
        return PLAIN_PAIR_NO_PLACE;
    fill(lowest, pair);
    return PLAIN_PAIR_KEPT;
}

plain_refusal plain_sweep(const plain_view *view, uint32_t second)
{
    plain_refusal refusal = plain_second_accept(view->mission, second);

    if (refusal != PLAIN_GOOD)
        return refusal;
    for (size_t at = 0; at < PLAIN_PAIRS; at++) {
        plain_pair *place = &view->mission->pairs[at];

        if ((uint64_t)place->second + view->board->lifetime < second)
            memset(place, 0, sizeof *place);
    }
    return PLAIN_GOOD;
}
