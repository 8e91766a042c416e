/*
 * floods.c: booking floods. Whether the node is a router, and what the
 * destination is, is not known here: a pair counts as kept where the onward
 * half says that ports were looked for, 11 for none included.
 *
 * The awkward case is the answer of a `pairs` line, which is sorted: what is
 * kept is written as that line has it, and the words are sorted as text. Their
 * digits stand in the order of the octets, so that comes to the same.
 */
#include "floods.h"

#include <inttypes.h>
#include <stdio.h>
#include <stdlib.h>
#include <string.h>

#define PAIRS 64
/* Source, format, timestamp and second, with three colons and an end. */
#define PAIR_TEXT (8 + 1 + 16 + 10 + 3 + 1)

struct pair {
    uint32_t source, format, p_field, second;
    uint64_t time;
};

static struct {
    uint32_t last_second, count;
    struct pair pairs[PAIRS];
} books[TRACE_MISSIONS];

static uint32_t lifetime;

void floods_begin(void)
{
    memset(books, 0, sizeof books);
    lifetime = 0;
}

void floods_set_lifetime(uint32_t seconds)
{
    lifetime = seconds;
}

static bool is_held(uint32_t mission, const struct pair *pair)
{
    bool held = false;

    for (uint32_t i = 0; i < books[mission].count; i++) {
        const struct pair *other = &books[mission].pairs[i];

        held = held ||
               (other->source == pair->source &&
                other->format == pair->format &&
                other->p_field == pair->p_field && other->time == pair->time);
    }
    return held;
}

/* Whether ports were looked for. */
static bool keeps(uint32_t onward)
{
    return onward == 1 || onward == 10 || onward == 11 || onward == 13 ||
           onward == 14 || onward == 15;
}

static const char *book_flood(uint32_t mission,
                              const struct floods_receipt *receipt)
{
    struct pair pair = {receipt->source, receipt->came->stamp_format,
                        receipt->came->p_field, receipt->second,
                        receipt->came->time};
    bool held = is_held(mission, &pair);
    uint32_t *count = &books[mission].count;

    if (receipt->onward == 30 && (held || *count < PAIRS))
        return "30 with a free place, or for a pair that is held";
    if (receipt->local == 0 && receipt->onward == 0 && !held)
        return "no, and not asked, for a pair that is not held";
    if (!keeps(receipt->onward))
        return NULL;
    if (held)
        return "ports wanted twice for a pair, and no free between";
    if (*count == PAIRS)
        return "a pair kept with all places held";
    books[mission].pairs[(*count)++] = pair;
    return NULL;
}

static bool is_unmarked(const struct floods_receipt *receipt)
{
    return receipt->came->routing == ARRIVING_FLOODED &&
           (!receipt->came->has_source || receipt->came->stamp_format == 0);
}

/* 29 exactly where the second is past; else it is accepted. */
static const char *accept(uint32_t mission, uint32_t second, uint32_t refusal)
{
    bool past = second < books[mission].last_second;

    if ((refusal == 29) != past)
        return "29 exactly where the second is past";
    if (!past)
        books[mission].last_second = second;
    return NULL;
}

const char *floods_receive(uint32_t mission,
                           const struct floods_receipt *receipt)
{
    uint32_t refusal = receipt->refusal;
    const char *wrong = NULL;

    if (refusal != 16 && refusal != 17 && refusal != 21)
        wrong = accept(mission, receipt->second, refusal);
    if (wrong != NULL)
        return wrong;
    if ((refusal == 0 || refusal == 28) &&
        (refusal == 28) != is_unmarked(receipt))
        return "28 exactly where a flood lacks source or timestamp";
    if (refusal != 0)
        return NULL;
    if (receipt->came->routing == ARRIVING_FLOODED)
        return book_flood(mission, receipt);
    return receipt->onward == 30 || (receipt->local == 0 &&
                                     receipt->onward == 0)
               ? "30, or no and not asked, without a flood"
               : NULL;
}

const char *floods_sweep(uint32_t mission, uint32_t second, uint32_t refusal)
{
    const char *wrong = accept(mission, second, refusal);
    uint32_t left = 0;

    if (wrong != NULL || refusal != 0)
        return wrong;
    for (uint32_t i = 0; i < books[mission].count; i++) {
        struct pair pair = books[mission].pairs[i];

        if (second - pair.second <= lifetime)
            books[mission].pairs[left++] = pair;
    }
    books[mission].count = left;
    return NULL;
}

/* ---- What a `pairs` line says -------------------------------------------- */

static int time_digits(const struct pair *pair)
{
    static const int DIGITS[] = {0, 6, 0, 8};

    return pair->format == 2
               ? 2 * (int)(1 + pair->p_field / 4 % 4 + pair->p_field % 4)
               : DIGITS[pair->format];
}

static void write_pair(char *text, const struct pair *pair)
{
    char p_field[3] = "";

    if (pair->format == 2)
        snprintf(p_field, sizeof p_field, "%02x",
                 (unsigned)(pair->p_field & 255));
    snprintf(text, PAIR_TEXT, "%08" PRIx32 ":%" PRIu32 ":%s%0*" PRIx64
                              ":%" PRIu32,
             pair->source, pair->format, p_field, time_digits(pair),
             pair->time, pair->second);
}

static int by_text(const void *one, const void *other)
{
    return strcmp((const char *)one, (const char *)other);
}

bool floods_are(uint32_t mission, struct trace_word pairs)
{
    static char texts[PAIRS][PAIR_TEXT];
    uint32_t count = books[mission].count;
    size_t at = 0;

    for (uint32_t i = 0; i < count; i++)
        write_pair(texts[i], &books[mission].pairs[i]);
    qsort(texts, count, sizeof *texts, by_text);
    if (count == 0)
        return trace_is(pairs, "-");
    for (uint32_t i = 0; i < count; i++) {
        size_t length = strlen(texts[i]);

        if (pairs.length - at < length ||
            memcmp(pairs.text + at, texts[i], length) != 0)
            return false;
        at += length;
        if (i + 1 < count && (at == pairs.length || pairs.text[at++] != ','))
            return false;
    }
    return at == pairs.length;
}
