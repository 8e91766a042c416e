/*
 * The list of routes. A record that the rules refuse counts as empty, and of
 * those that hold the same entry the lowest place alone counts, up or not.
 *
 * Masks are ones and then zeros, so of two masks the one with more ones is the
 * larger unsigned number, and no ones need be counted. Routes of one mission
 * that match and have equal masks have equal prefixes: they are one entry.
 *
 * So the search takes the longest route that is up, at its lowest place. The
 * awkward case is one whose entry is held by a still lower place that is not
 * up: then no route of that mask counts, and the next shorter one is looked
 * for. In a list that the operator's calls wrote this never happens.
 */
#include "plain_list.h"

static bool codes_good(const plain_record *record)
{
    bool capabilities_good = record->capabilities <= PLAIN_ASKS_HOP_COUNT ||
                             record->capabilities == PLAIN_ASKS_BOTH;

    return record->availability >= PLAIN_UP &&
           record->availability <= PLAIN_OUT && capabilities_good;
}

plain_refusal plain_record_judge(const plain_board *board,
                                 const plain_record *record)
{
    if (!plain_set_has(board->set_up, record->port))
        return PLAIN_SET_NUMBER;
    if (!plain_mask_contiguous(record->mask) ||
        (record->prefix.bits & ~record->mask.bits) != 0)
        return PLAIN_SET_MASK;
    if (!codes_good(record) || record->mission >= PLAIN_MISSIONS ||
        !plain_set_has(board->owned[record->mission], record->port))
        return PLAIN_SET_CODE;
    return PLAIN_GOOD;
}

static bool same_entry(const plain_record *one, const plain_record *other)
{
    return one->prefix.bits == other->prefix.bits &&
           one->mask.bits == other->mask.bits &&
           one->mission == other->mission;
}

size_t plain_list_holder(const plain_board *board, plain_routes routes,
                         const plain_record *record)
{
    size_t place = 0;

    while (place < routes.count &&
           !(routes.records[place].filled != 0 &&
             same_entry(&routes.records[place], record) &&
             plain_record_judge(board, &routes.records[place]) == PLAIN_GOOD))
        place++;
    return place;
}

/* The longest that is up, at its lowest place, of those with a mask under the
 * one said. */
static const plain_record *longest_under(const plain_board *board,
                                         uint32_t mission, plain_routes routes,
                                         plain_address destination,
                                         uint64_t mask)
{
    const plain_record *best = NULL;

    for (size_t place = 0; place < routes.count; place++) {
        const plain_record *record = &routes.records[place];

        if ((destination.bits & record->mask.bits) == record->prefix.bits &&
            record->filled != 0 && record->mission == mission &&
            record->availability == PLAIN_UP && record->mask.bits < mask &&
            (best == NULL || record->mask.bits > best->mask.bits) &&
            plain_record_judge(board, record) == PLAIN_GOOD)
            best = record;
    }
    return best;
}

const plain_record *plain_list_longest(const plain_board *board,
                                       uint32_t mission, plain_routes routes,
                                       plain_address destination)
{
    const plain_record *best =
        longest_under(board, mission, routes, destination, UINT64_MAX);

    while (best != NULL && plain_list_holder(board, routes, best) !=
                               (size_t)(best - routes.records))
        best = longest_under(board, mission, routes, destination,
                             best->mask.bits);
    return best;
}
