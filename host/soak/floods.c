/*
 * floods.c: the rule of floods, word by word. Unlike that of other datagrams it
 * needs no list, group or path, so it is said in full: which number the onward
 * half has, which place keeps the pair, and which ports are granted a copy.
 *
 * The awkward case is a pair that is younger than the sweep, which no history
 * leaves: it has no age, and stays.
 */
#include "floods.h"

#include <string.h>

#include "list.h"

enum { FORMAT, SOURCE, UPPER, LOWER, SECOND };

static uint32_t *pair_at(hj_mission *mission, uint32_t place)
{
    return mission->words + SOAK_PAIRS_AT + HJ_PAIR_NUMBERS * place;
}

/* The words of the flood's pair, but for the second. */
static void pair_of(const struct soak_judged *sent, uint32_t *pair)
{
    const plain_fields *fields = &sent->came->fields;

    pair[FORMAT] = fields->stamp_format;
    pair[SOURCE] = soak_filled_in(sent, fields->source);
    pair[UPPER] = fields->p_field << 24 | (uint32_t)(fields->time >> 32);
    pair[LOWER] = (uint32_t)fields->time;
}

static bool is_held(const struct soak_judged *sent, const uint32_t *pair)
{
    bool held = false;

    for (uint32_t i = 0; i < HJ_PAIRS; i++)
        held = held || memcmp(pair_at(sent->due->mission, i), pair,
                              SECOND * sizeof *pair) == 0;
    return held;
}

/* The lowest; HJ_PAIRS where there is none. */
static uint32_t free_place(const struct soak_judged *sent)
{
    uint32_t place = 0;

    while (place < HJ_PAIRS &&
           pair_at(sent->due->mission, place)[FORMAT] != 0)
        place++;
    return place;
}

static bool is_ours(const struct soak_judged *sent, uint32_t port)
{
    return list_has_port(sent->due->board, sent->due->mission->words[0], port);
}

/* Whether the destination is a port's address or the limited broadcast. */
static bool is_here(const struct soak_judged *sent)
{
    uint32_t to = soak_filled_in(sent, sent->came->fields.destination);
    bool here = to == 0xffffffff;

    for (uint32_t port = 0; port < HJ_PORTS; port++)
        here = here || (is_ours(sent, port) &&
                        soak_port_words(sent, port)[1] == to);
    return here;
}

/* Whether the port's copy fits it, and the length field. */
static bool fits(const struct soak_judged *sent, uint32_t port)
{
    uint32_t octets = soak_octets_without_route(sent, port) +
                      sent->came->length - sent->came->header_length;

    return octets <= HJ_MOST_LENGTH &&
           octets <= soak_port_words(sent, port)[3];
}

static const char *number_is(const struct soak_judged *sent, uint32_t due)
{
    return sent->answer->parts[TOLD_ONWARD] == due
               ? NULL
               : "not the onward half that is due of a flood";
}

/* The onward half of a pair that was kept. */
static const char *sent_on(const struct soak_judged *sent)
{
    const plain_fields *fields = &sent->came->fields;
    uint64_t granted = 0, wanted = 0;

    for (uint32_t port = 0; port < HJ_PORTS; port++) {
        if (port == sent->call->numbers[0] || !is_ours(sent, port))
            continue;
        wanted |= (uint64_t)1 << port;
        if (fits(sent, port))
            granted |= (uint64_t)1 << port;
    }
    if (wanted == 0)
        return number_is(sent, HJ_NO_ROUTE);
    if (fields->hop_present && fields->hop < 2)
        return number_is(sent, HJ_HOPS_USED_UP);
    if (granted == 0)
        return number_is(sent, HJ_TOO_BIG);
    if ((sent->answer->parts[TOLD_TOOK] |
         sent->answer->parts[TOLD_DROPPED]) != granted)
        return "not the ports that are due of a flood";
    return NULL;
}

const char *soak_flood(const struct soak_judged *sent)
{
    bool is_local = sent->answer->parts[TOLD_LOCAL] != HJ_LOCAL_NO;
    uint32_t place = free_place(sent);
    uint32_t pair[HJ_PAIR_NUMBERS];

    if (is_here(sent))
        return number_is(sent, HJ_NOT_ASKED);
    if (sent->due->board->words[0] == 0)
        return number_is(sent, is_local ? HJ_NOT_ASKED : HJ_NOT_FOR_US);
    pair_of(sent, pair);
    if (is_held(sent, pair))
        return number_is(sent, HJ_NOT_ASKED);
    if (place == HJ_PAIRS)
        return number_is(sent, HJ_PAIRS_HELD);
    pair[SECOND] = sent->call->numbers[2];
    memcpy(pair_at(sent->due->mission, place), pair, sizeof pair);
    return sent_on(sent);
}

void soak_sweep(const struct library_lent *due, uint32_t second)
{
    due->mission->words[SOAK_LAST_SECOND_AT] = second;
    for (uint32_t i = 0; i < HJ_PAIRS; i++) {
        uint32_t *pair = pair_at(due->mission, i);

        if (pair[FORMAT] != 0 && second >= pair[SECOND] &&
            second - pair[SECOND] > due->board->words[SOAK_LIFETIME_AT])
            memset(pair, 0, HJ_PAIR_NUMBERS * sizeof *pair);
    }
}

bool soak_is_held(const hj_mission *mission, uint32_t place)
{
    return place < HJ_PAIRS &&
           mission->words[SOAK_PAIRS_AT + HJ_PAIR_NUMBERS * place] != 0;
}

uint32_t soak_held(const hj_mission *mission)
{
    uint32_t held = 0;

    for (uint32_t i = 0; i < HJ_PAIRS; i++)
        held += soak_is_held(mission, i);
    return held;
}
