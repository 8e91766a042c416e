/*
 * floods.c: what was reached of floods. Whether a pair is held, or was freed
 * and is kept again, is not in an answer: it is told from the view, as the
 * lines of the rules are (relay.c). The lists are in flood_lists.h.
 */
#include "floods.h"

#include <stdio.h>

#include "flood_lists.h"
#include "table.h"

#define NAME(name, condition) name,
#define COUNT(name, condition) *reached++ += (condition) ? 1 : 0;

static const char *const SECOND_NAMES[] = {SECOND_LIST(NAME)};
static const char *const FLOOD_NAMES[] = {FLOOD_LIST(NAME)};
static const char *const SWEEP_NAMES[] = {SWEEP_LIST(NAME)};

static struct {
    uint64_t of_second[LENGTH(SECOND_NAMES)];
    uint64_t of_flood[LENGTH(FLOOD_NAMES)];
    uint64_t of_sweep[LENGTH(SWEEP_NAMES)];
    uint64_t pairs_none, pairs_some, pairs_all;
} tally;

void count_second(const struct view *v, const struct receipt *r)
{
    uint64_t *reached = tally.of_second;

    SECOND_LIST(COUNT)
}

static struct alike find_alike(const struct view *v, const struct receipt *r)
{
    struct view_pair pair = view_pair_of(v, r->arrival, &r->datagram);
    struct alike alike = {false, false, false};

    for (uint32_t i = 0; i < view_now(v)->kept; i++) {
        const struct view_pair *other = &view_now(v)->pairs[i];
        bool source = other->source == pair.source;
        bool format = other->format == pair.format;
        bool p_field = other->p_field == pair.p_field;

        if (!other->held || other->time != pair.time)
            continue;
        alike.other_format |= source && !format;
        alike.other_p_field |= source && format && !p_field;
        alike.other_source |= !source && format && p_field;
    }
    return alike;
}

void count_flood(const struct view *v, const struct receipt *r)
{
    struct alike alike = find_alike(v, r);
    uint64_t *reached = tally.of_flood;

    FLOOD_LIST(COUNT)
}

void count_sweep(const struct view *v, uint32_t second, uint32_t number)
{
    struct swept swept = {.number = number, .second = second};
    const struct swept *w = &swept;
    uint64_t *reached = tally.of_sweep;

    for (uint32_t i = 0; i < view_now(v)->kept; i++) {
        const struct view_pair *pair = &view_now(v)->pairs[i];
        uint64_t age = (uint64_t)second - pair->second;

        swept.held += pair->held;
        swept.freed += view_frees(v, pair, second);
        swept.equal |= pair->held && age == v->lifetime;
        swept.one_over |= pair->held && age == (uint64_t)v->lifetime + 1;
    }
    SWEEP_LIST(COUNT)
}

/* Joined by commas, `-` for none. */
bool count_pairs(const struct view *view, const struct trace_call *answer)
{
    struct trace_word word = answer->words[0];
    uint32_t pairs = !trace_is(word, "-");

    for (size_t i = 0; i < word.length; i++)
        pairs += word.text[i] == ',';
    tally.pairs_none += pairs == 0;
    tally.pairs_some += pairs > 0 && pairs < VIEW_PAIRS;
    tally.pairs_all += pairs == VIEW_PAIRS;
    return pairs == view_held(view);
}

void say_floods(void)
{
    puts("Seconds:");
    say_list(SECOND_NAMES, tally.of_second, LENGTH(SECOND_NAMES));
    puts("Floods:");
    say_list(FLOOD_NAMES, tally.of_flood, LENGTH(FLOOD_NAMES));
    puts("Sweeps:");
    say_list(SWEEP_NAMES, tally.of_sweep, LENGTH(SWEEP_NAMES));
    puts("Pairs:");
    say_row("pairs: none", tally.pairs_none, LEAST);
    say_row("pairs: 1 to 63", tally.pairs_some, LEAST);
    say_row("pairs: 64", tally.pairs_all, LEAST);
}
