/*
 * words_relay.c: the words new, records, record, receive, take, counters,
 * waiting and search, and those that set, each the library's call of that name
 * on one relay. The list of routes is the caller's, who is this program: new,
 * records and record write it themselves.
 *
 * The library decides, never this file: a place 700 or a port 9 is handed over
 * as it stands, and only what the library's types cannot hold makes a line that
 * is not understood; but the form has no mission over 1.
 *
 * ` !` stands at the end of an answer where the call changed what it should
 * not: a word around what was lent; a word of it, where the call refused or
 * only reads; a word of the other mission's state; an octet of the output
 * outside the headers sent on, or any octet that was lent to be read. So it
 * does where the parts of a verdict, or of what a search found, do not go
 * together, or where a verdict tells other lengths than the headers have.
 * The answer of `new`, `records` and `record` is nothing, so their lines have
 * no ` = `.
 */
#include "words.h"

#include <string.h>

#include "harpjuniper.h"
#include "lent.h"
#include "lent_relay.h"
#include "shared/library.h"
#include "verdict.h"

/* ---- What is lent, and the settings -------------------------------------- */

bool answer_new(const struct trace_word *arguments, struct text *answer)
{
    uint64_t refused;

    (void)arguments;
    lent_records(TRACE_RECORDS);
    refused = library_call(CALL_FRESH_BOARD, lent_relay(0), NULL);
    for (uint32_t i = 0; i < HJ_MISSIONS; i++) {
        refused |= library_call(CALL_FRESH_MISSION, lent_relay(i), &i);
        lent_relay_answer(answer, LENT_BM);
    }
    if (refused != HJ_DONE || hj_board_words() != HJ_BOARD_WORDS ||
        hj_mission_words() != HJ_MISSION_WORDS)
        text_string(answer, "!");
    return true;
}

/* The one list there is: list 0. */
static bool is_list(struct trace_word word)
{
    uint64_t list;

    return trace_number(word, 0, &list);
}

bool answer_records(const struct trace_word *arguments, struct text *answer)
{
    uint64_t count;

    (void)answer;
    if (!is_list(arguments[0]) ||
        !trace_number(arguments[1], TRACE_MOST_RECORDS, &count))
        return false;
    lent_records((uint32_t)count);
    return true;
}

/* The numbers of the line: list, place, filled, prefix, mask, port,
 * availability, capabilities, mission. */
bool answer_record(const struct trace_word *arguments, struct text *answer)
{
    uint32_t n[CALL_MOST_NUMBERS];
    hj_record record = {0, 0, 0, 0, 0, 0, 0};

    (void)answer;
    if (!is_list(arguments[0]) ||
        !trace_numbers(arguments, call_facts[LINE_RECORD].arguments, n) ||
        n[5] > UINT8_MAX || n[6] > UINT8_MAX || n[7] > UINT8_MAX)
        return false;
    if (n[2] != 0)
        memcpy(&record, n + 2, sizeof record);
    lent_record(n[1], &record);
    return true;
}

/* The mission whose call it is, the last argument, where the word has one. */
static bool take_mission(enum call call, const struct trace_word *arguments,
                         uint32_t *mission)
{
    size_t last = strlen(call_facts[call].arguments) - 1;

    *mission = 0;
    return call_facts[call].arguments[last] != 'M' ||
           trace_mission(arguments[last], mission);
}

/* What a call that sets writes. */
static enum call_lent written(enum call call)
{
    enum call_lent lent = call_facts[call].lent;

    return lent == LENT_BM ? LENT_M : lent == LENT_BR ? LENT_R : lent;
}

bool answer_setting(enum call call, const struct trace_word *arguments,
                    struct text *answer)
{
    uint32_t numbers[CALL_MOST_NUMBERS];
    uint32_t refusal, mission;

    if (!trace_numbers(arguments, call_facts[call].arguments, numbers) ||
        !take_mission(call, arguments, &mission))
        return false;
    refusal = (uint32_t)library_call(call, lent_relay(mission), numbers);
    text_number(answer, refusal);
    lent_relay_answer(answer, refusal == HJ_DONE ? written(call) : LENT_NONE);
    return true;
}

/* ---- Datagrams ----------------------------------------------------------- */

struct arrival {
    hj_arrival how;
    uint32_t mission;
    size_t room;
    size_t count;
    uint8_t octets[TRACE_MOST_OCTETS];
};

static bool take_arrival(const struct trace_word *words,
                         struct arrival *arrival)
{
    uint64_t slot, room;

    if (!trace_number_32(words[0], &arrival->how.port) ||
        !trace_number(words[1], UINT16_MAX, &slot) ||
        !trace_number(words[2], LENT_MOST_ROOM, &room))
        return false;
    arrival->how.slot = (uint16_t)slot;
    arrival->room = room;
    return trace_octets(words[3], arrival->octets, &arrival->count) &&
           trace_number_32(words[4], &arrival->how.second) &&
           trace_mission(words[5], &arrival->mission);
}

bool answer_receive(const struct trace_word *arguments, struct text *answer)
{
    static struct arrival arrival;
    static uint8_t octets[TRACE_MOST_OCTETS];
    const struct library_lent *lent;
    hj_verdict verdict;
    uint8_t *output;

    if (!take_arrival(arguments, &arrival))
        return false;
    memcpy(octets, arrival.octets, arrival.count);
    output = lent_output(arrival.room);
    lent = lent_relay(arrival.mission);
    verdict = hj_receive(lent->board, lent->board_words, lent->mission,
                         lent->mission_words, lent->routes, lent->route_count,
                         arrival.how, octets, arrival.count, output,
                         arrival.room);
    verdict_add(answer, verdict, 0, arrival.room);
    lent_relay_answer(answer, verdict_counts(verdict) ? LENT_M : LENT_NONE);
    if (!verdict_agrees(verdict, octets, arrival.count, output) ||
        !lent_rest_is_kept(arrival.room, arrival.room) ||
        memcmp(octets, arrival.octets, arrival.count) != 0)
        text_string(answer, " !");
    return true;
}

bool answer_take(const struct trace_word *arguments, struct text *answer)
{
    uint32_t port, mission;
    hj_answer taken;

    if (!trace_number_32(arguments[0], &port) ||
        !trace_mission(arguments[1], &mission))
        return false;
    taken = library_call(CALL_TAKE, lent_relay(mission), &port);
    text_number(answer, hj_refusal(taken));
    text_next_number(answer, hj_slot(taken));
    text_next_number(answer, hj_precedence(taken));
    lent_relay_answer(answer,
                      hj_refusal(taken) == HJ_DONE ? LENT_M : LENT_NONE);
    return true;
}

/* ---- What stands in it --------------------------------------------------- */

bool answer_counters(const struct trace_word *arguments, struct text *answer)
{
    const struct library_lent *lent;
    uint32_t mission, refusals = 0;

    if (!trace_mission(arguments[0], &mission))
        return false;
    lent = lent_relay(mission);
    for (uint32_t i = 0; i < HJ_COUNTERS; i++) {
        hj_answer counter = library_call(CALL_COUNTER, lent, &i);

        if (i > 0)
            text_string(answer, " ");
        text_number(answer, hj_value(counter));
        refusals |= hj_refusal(counter);
    }
    if (refusals != 0)
        text_string(answer, " !");
    lent_relay_answer(answer, LENT_NONE);
    return true;
}

bool answer_waiting(const struct trace_word *arguments, struct text *answer)
{
    uint32_t port, mission;
    hj_answer waiting;

    if (!trace_number_32(arguments[0], &port) ||
        !trace_mission(arguments[1], &mission))
        return false;
    waiting = library_call(CALL_WAITING, lent_relay(mission), &port);
    if (hj_refusal(waiting) != HJ_DONE)
        text_string(answer, "!");
    text_number(answer, hj_refusal(waiting) != HJ_DONE ? hj_refusal(waiting)
                                                       : hj_value(waiting));
    lent_relay_answer(answer, LENT_NONE);
    return true;
}

/* Without a route every part but a refusal is 0; with one, what no part has
 * is. */
static bool found_agrees(hj_found found)
{
    if (hj_is_found(found) == 0)
        return found == 0 || found == HJ_BAD_NUMBER;
    return hj_is_found(found) == 1 && hj_found_refusal(found) == HJ_DONE &&
           found >> 48 == 0;
}

static void add_found(struct text *answer, hj_found found)
{
    if (hj_found_refusal(found) != HJ_DONE) {
        text_number(answer, hj_found_refusal(found));
    } else if (hj_is_found(found)) {
        text_number(answer, hj_found_place(found));
        text_next_number(answer, hj_found_ones(found));
        text_next_number(answer, hj_found_port(found));
    } else {
        text_string(answer, "-");
    }
}

bool answer_search(const struct trace_word *arguments, struct text *answer)
{
    uint32_t address, mission;
    hj_found found;

    if (!trace_address(arguments[0], &address) ||
        !trace_mission(arguments[1], &mission))
        return false;
    found = library_call(CALL_SEARCH, lent_relay(mission), &address);
    add_found(answer, found);
    if (!found_agrees(found))
        text_string(answer, " !");
    lent_relay_answer(answer, LENT_NONE);
    return true;
}
