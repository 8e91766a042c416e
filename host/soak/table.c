/*
 * table.c: the names of the calls, a call said in a line, and the table of what
 * was run.
 *
 * The awkward case is a run that is too short to have met what it is to meet:
 * it is said not to be whole, and fails, so that no short run passes for a
 * whole one.
 */
#include "table.h"

#include <inttypes.h>
#include <stdio.h>
#include <string.h>

static void say_octets(const struct soak_call *call)
{
    printf(", %zu octets ", call->count);
    for (size_t i = 0; i < call->count; i++)
        printf("%02x", (unsigned)call->octets[i]);
}

static void say_fields(const hj_fields *fields)
{
    const uint8_t *at = (const uint8_t *)fields;

    printf(", the octets of hj_fields ");
    for (size_t i = 0; i < sizeof *fields; i++)
        printf("%02x", (unsigned)at[i]);
}

/* Whether the call is lent an output, and octets to read. */
static bool has_room(enum call which)
{
    return which == CALL_RECEIVE || which == CALL_RECEIVE_MANY ||
           which == CALL_ECHO || which == CALL_BUILD ||
           which == CALL_BUILD_REQUEST || which == CALL_BUILD_REPLY;
}

static bool has_octets(enum call which)
{
    return (has_room(which) && which != CALL_BUILD) || which == CALL_READ ||
           which == CALL_READ_ECHO || which == CALL_CHECKSUM;
}

/* The lists that are read; of the answers only how many there are. */
static void say_lists(const struct soak_batch *batch)
{
    const size_t *counts = batch->counts;

    printf(", lengths");
    for (size_t i = 0; i < counts[LIST_LENGTHS]; i++)
        printf(" %08" PRIx32, batch->lengths[i]);
    printf(", ports");
    for (size_t i = 0; i < counts[LIST_PORTS]; i++)
        printf(" %08" PRIx32, batch->ports[i]);
    printf(", slots");
    for (size_t i = 0; i < counts[LIST_SLOTS]; i++)
        printf(" %04x", (unsigned)batch->slots[i]);
    printf(", seconds");
    for (size_t i = 0; i < counts[LIST_SECONDS]; i++)
        printf(" %08" PRIx32, batch->seconds[i]);
    printf(", %zu answers", counts[LIST_ANSWERS]);
}

void soak_say_call(const struct soak_call *call)
{
    printf("%s", call_facts[call->which].name);
    for (uint32_t i = 0; i < call_facts[call->which].numbers; i++)
        printf(" %08" PRIx32, call->numbers[i]);
    if (call_facts[call->which].lent & LENT_B)
        printf(", a board of %zu words", call->board_words);
    if (call_facts[call->which].lent & LENT_M)
        printf(", mission %" PRIu32 " of %zu words", call->mission,
               call->mission_words);
    if (call_facts[call->which].lent & LENT_R)
        printf(", %zu records", call->records);
    if (has_room(call->which))
        printf(", room %zu", call->room);
    if (call->which == CALL_RECEIVE_MANY)
        say_lists(&call->batch);
    if (call->which == CALL_BUILD)
        printf(", data %zu", call->data);
    if (call->which == CALL_BUILD)
        say_fields(&call->fields);
    else if (has_octets(call->which))
        say_octets(call);
    putchar('\n');
}

/* How many of the lengths up to the most were met. */
static uint32_t lengths_met(const uint64_t *lengths, uint32_t most)
{
    uint32_t met = 0;

    for (uint32_t length = 0; length <= most; length++)
        met += lengths[length] > 0;
    return met;
}

static uint64_t wrong_calls(const struct soak_tally *tally)
{
    uint64_t sum = 0;

    for (int which = 0; which < CALLS; which++)
        sum += tally->wrong_made[which];
    return sum;
}

static void say(const char *what, uint64_t number)
{
    printf("%-44s%10" PRIu64 "\n", what, number);
}

/* ---- What the calls ended in --------------------------------------------- */

/* The numbers that a group of calls may end in, all of which a run is to have
 * met, and how often it met each. */
struct ends {
    const char *what;
    bool due[CALL_NUMBERS];
    uint64_t times[CALL_NUMBERS];
};

/* The groups, by the names of group_of. */
static const char SETTINGS[] = "settings";
static const char READING[] = "reading a relay";

static const char *group_of(enum call which)
{
    if (call_sets(which) && which != CALL_SWEEP)
        return SETTINGS;
    return call_facts[which].kind == KIND_LOOK ? READING
                                               : call_facts[which].name;
}

static struct ends ends_of(const struct soak_tally *tally, const char *group)
{
    struct ends ends = {group, {false}, {0}};

    for (int which = 0; which < CALLS; which++) {
        if (strcmp(group_of((enum call)which), group) != 0)
            continue;
        for (uint32_t i = 0; i < CALL_NUMBERS; i++) {
            ends.due[i] = ends.due[i] || call_ends_in((enum call)which, i);
            ends.times[i] += tally->ends[which][i];
        }
    }
    return ends;
}

/* The onward half of a verdict, whose numbers end no call. */
static struct ends onward_ends(const struct soak_tally *tally)
{
    struct ends ends = {"onward half",
                        {[HJ_NOT_ASKED] = true,
                         [HJ_SENT_ON] = true,
                         [HJ_PAIRS_HELD] = true},
                        {0}};

    for (uint32_t i = HJ_NOT_FOR_US; i <= HJ_QUEUES_FULL; i++)
        ends.due[i] = i != HJ_NOT_UP;
    memcpy(ends.times, tally->onward, sizeof ends.times);
    return ends;
}

/* Likewise what became of an echo request. */
static struct ends reply_ends(const struct soak_tally *tally)
{
    struct ends ends = {"reply",
                        {[HJ_NO_REPLY] = true,
                         [HJ_SENT_ON] = true,
                         [HJ_NO_ROUTE] = true,
                         [HJ_TOO_BIG] = true,
                         [HJ_QUEUES_FULL] = true},
                        {0}};

    memcpy(ends.times, tally->replies, sizeof ends.times);
    return ends;
}

/* Likewise the items of batches, none of which lacks room. */
static struct ends item_ends(const struct soak_tally *tally)
{
    struct ends ends = {"item of a batch", {false}, {0}};

    for (uint32_t i = 0; i < CALL_NUMBERS; i++)
        ends.due[i] = call_ends_in(CALL_RECEIVE, i) &&
                      i != HJ_SHORT_OUTPUT && i != HJ_BAD_NUMBER;
    memcpy(ends.times, tally->item_ends, sizeof ends.times);
    return ends;
}

static bool say_ends(const struct ends *ends, bool aloud)
{
    bool met = true;

    if (aloud)
        printf("  %s:", ends->what);
    for (uint32_t i = 0; i < CALL_NUMBERS; i++) {
        if (!ends->due[i])
            continue;
        if (aloud)
            printf("%s %" PRIu32 " %" PRIu64, i == 0 ? "" : ",", i,
                   ends->times[i]);
        met = met && ends->times[i] > 0;
    }
    if (aloud)
        putchar('\n');
    return met;
}

static bool all_ends(const struct soak_tally *tally, bool aloud)
{
    static const char *const GROUPS[] = {
        "hj_read_words",    "hj_build_words", "hj_read_echo_words",
        "hj_build_request", "hj_build_reply", SETTINGS,
        "hj_receive_at",    "hj_receive_many", "hj_echo",
        "hj_sweep",         "hj_take",        READING};
    struct ends ends = onward_ends(tally);
    bool met = say_ends(&ends, aloud);

    ends = reply_ends(tally);
    met = say_ends(&ends, aloud) && met;
    ends = item_ends(tally);
    met = say_ends(&ends, aloud) && met;

    for (size_t i = 0; i < sizeof GROUPS / sizeof *GROUPS; i++) {
        ends = ends_of(tally, GROUPS[i]);
        met = say_ends(&ends, aloud) && met;
    }
    return met;
}

/* ---- The table ----------------------------------------------------------- */

/* How many of the lengths were met in every list of a batch. */
static uint32_t listed_met(const struct soak_tally *tally)
{
    uint32_t met = 0;

    for (uint32_t length = 0; length <= MOST_LISTED; length++) {
        bool in_all = true;

        for (int list = 0; list < SOAK_LISTS; list++)
            in_all = in_all && tally->listed[list][length] > 0;
        met += in_all;
    }
    return met;
}

static void say_batches(const struct soak_tally *tally)
{
    say("a batch's lists of 0 to 70, each tried", listed_met(tally));
    say("batches heard, single calls the same", tally->batches_heard);
    say("  items of them", tally->items);
    say("  with a refused one between others", tally->refused_between);
}

void soak_say_tally(const struct soak_tally *tally)
{
    printf("%-22s%12s%22s\n", "call", "calls", "of them wrong words");
    for (int which = 0; which < CALLS; which++)
        printf("%-22s%12" PRIu64 "%22" PRIu64 "\n", call_facts[which].name,
               tally->made[which], tally->wrong_made[which]);
    printf("%-22s%12" PRIu64 "%22" PRIu64 "\n\n", "all", tally->calls,
           wrong_calls(tally));
    say("boards of 0 to 100 words tried, but 43",
        lengths_met(tally->wrong_boards, MOST_BOARDS));
    say("missions of 0 to 745 words tried, but 732",
        lengths_met(tally->wrong_missions, MOST_MISSIONS));
    say("lists of 0 to 530 records tried",
        lengths_met(tally->lists, MOST_LISTS));
    say_batches(tally);
    say("histories", tally->states[SOAK_HISTORY]);
    say("  calls on them, plain's answers the same",
        tally->calls_on[SOAK_HISTORY]);
    say("  ledgers of a port found closed", tally->ledgers);
    say("  searches that found a route", tally->found[1]);
    say("    a longer one is not up", tally->over[1]);
    say("  searches that found none", tally->found[0]);
    say("    one matches, and is not up", tally->over[0]);
    say("relays with a few words changed", tally->states[SOAK_CHANGED]);
    say("  calls on them", tally->calls_on[SOAK_CHANGED]);
    say("garbage relays", tally->states[SOAK_GARBAGE]);
    say("  calls on them", tally->calls_on[SOAK_GARBAGE]);
    say("datagrams sent on, headers kept", tally->sent[SENT_KEPT]);
    say("  rewritten", tally->sent[SENT_REWRITTEN]);
    say("  kept for some ports, rewritten for others",
        tally->sent[SENT_IN_TWO_FORMS]);
    say("floods whose pair was kept", tally->floods_kept);
    say("  was held, and so neither half", tally->floods_held);
    say("sweeps that freed a pair", tally->swept[1]);
    say("  that freed none", tally->swept[0]);
    puts("numbers that calls on the right words ended in, each with how "
         "often:");
    all_ends(tally, true);
}

bool soak_is_whole(const struct soak_tally *tally)
{
    bool whole = lengths_met(tally->wrong_boards, MOST_BOARDS) ==
                     MOST_BOARDS &&
                 lengths_met(tally->wrong_missions, MOST_MISSIONS) ==
                     MOST_MISSIONS &&
                 lengths_met(tally->lists, MOST_LISTS) == MOST_LISTS + 1 &&
                 listed_met(tally) == MOST_LISTED + 1 &&
                 tally->refused_between > 0 && tally->ledgers > 0 &&
                 tally->found[0] > tally->over[0] && tally->over[0] > 0 &&
                 tally->found[1] > tally->over[1] && tally->over[1] > 0 &&
                 tally->floods_kept > 0 && tally->floods_held > 0 &&
                 tally->swept[0] > 0 && tally->swept[1] > 0 &&
                 all_ends(tally, false);

    for (int sort = 0; sort < SOAK_STATES; sort++)
        whole = whole && tally->calls_on[sort] > 0;
    for (int sort = 0; sort < SOAK_SENT; sort++)
        whole = whole && tally->sent[sort] > 0;
    for (int which = 0; which < CALLS; which++)
        whole = whole && tally->made[which] > 0 &&
                ((call_facts[which].lent & LENT_BM) == 0 ||
                 tally->wrong_made[which] > 0);
    return whole;
}
