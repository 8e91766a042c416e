/*
 * words_batch.c: the word batch. The items are then received one by one too, on
 * a copy of the mission's state as it was, and both are compared: each answer,
 * each octet of the output, and all words of the state.
 *
 * ` !` stands behind an item where its single call answers or writes otherwise,
 * where the call changed an octet of its output outside the headers sent on, or
 * where the parts of its verdict do not go together. It stands at the end where
 * the state is not the one that single calls leave, or the call changed what it
 * should not: an octet of the output behind the last item's, a number of the
 * lists, an octet lent to be read, any answer that is no item's, or what stands
 * around these; and a word of the relay, as with other words.
 *
 * The awkward case is a library that hears what it should refuse: items that
 * the lists, the octets or the room do not hold are not looked at, and the
 * answer is marked.
 */
#include "words.h"

#include <string.h>

#include "harpjuniper.h"
#include "lent.h"
#include "lent_list.h"
#include "lent_relay.h"
#include "verdict.h"

/* A line, as it was read. */
static struct batch {
    size_t room;
    size_t items; /* of the lengths; the answers have as many */
    size_t port_count, slot_count, second_count, octet_count;
    uint32_t lengths[TRACE_MOST_LISTED];
    uint32_t ports[TRACE_MOST_LISTED];
    uint32_t seconds[TRACE_MOST_LISTED];
    uint32_t wide_slots[TRACE_MOST_LISTED];
    uint16_t slots[TRACE_MOST_LISTED];
    uint8_t octets[TRACE_MOST_OCTETS];
    uint32_t mission;
} batch;

/* What was lent of it. */
static struct lent_list lengths, ports, slots, seconds, octets, answers;

static bool take_batch(const struct trace_word *words)
{
    uint64_t room;

    if (!trace_number(words[0], LENT_MOST_ROOM, &room) ||
        !trace_list(words[1], UINT32_MAX, batch.lengths, &batch.items) ||
        !trace_list(words[2], UINT32_MAX, batch.ports, &batch.port_count) ||
        !trace_list(words[3], UINT16_MAX, batch.wide_slots,
                    &batch.slot_count) ||
        !trace_list(words[4], UINT32_MAX, batch.seconds,
                    &batch.second_count) ||
        !trace_octets(words[5], batch.octets, &batch.octet_count))
        return false;
    batch.room = room;
    for (size_t i = 0; i < batch.slot_count; i++)
        batch.slots[i] = (uint16_t)batch.wide_slots[i];
    return trace_mission(words[6], &batch.mission);
}

static void lend(void)
{
    lent_list(&lengths, batch.lengths, batch.items * sizeof *batch.lengths);
    lent_list(&ports, batch.ports, batch.port_count * sizeof *batch.ports);
    lent_list(&slots, batch.slots, batch.slot_count * sizeof *batch.slots);
    lent_list(&seconds, batch.seconds,
              batch.second_count * sizeof *batch.seconds);
    lent_list(&octets, batch.octets, batch.octet_count);
    lent_list(&answers, NULL, batch.items * sizeof(hj_verdict));
}

static uint32_t call(const struct library_lent *lent, uint8_t *output)
{
    return hj_receive_many(
        lent->board, lent->board_words, lent->mission, lent->mission_words,
        lent->routes, lent->route_count, lent_list_at(&lengths), batch.items,
        lent_list_at(&ports), batch.port_count, lent_list_at(&slots),
        batch.slot_count, lent_list_at(&seconds), batch.second_count,
        lent_list_at(&octets), batch.octet_count, lent_list_at(&answers),
        batch.items, output, batch.room);
}

/* Whether what the items need is there. */
static bool holds_items(void)
{
    size_t left = batch.octet_count;

    for (size_t i = 0; i < batch.items; i++) {
        if (batch.lengths[i] > left)
            return false;
        left -= batch.lengths[i];
    }
    return batch.port_count == batch.items &&
           batch.slot_count == batch.items &&
           batch.second_count == batch.items &&
           batch.room >= batch.items * HJ_OUTPUT_ROOM;
}

/* Whether the item by itself, on the state that those before it left, has the
 * verdict and the output. */
static bool is_single(const struct library_lent *alone, size_t item,
                      const uint8_t *came, hj_verdict verdict,
                      const uint8_t *output)
{
    static uint8_t single[HJ_OUTPUT_ROOM];
    hj_verdict told;

    memset(single, LENT_UNTOUCHED, sizeof single);
    told = hj_receive_at(alone->board, alone->board_words, alone->mission,
                         alone->mission_words, alone->routes,
                         alone->route_count, batch.ports[item],
                         batch.slots[item], batch.seconds[item], came,
                         batch.lengths[item], single, sizeof single);
    return told == verdict && memcmp(single, output, sizeof single) == 0;
}

/* Adds each item; whether one of them was counted. */
static bool add_items(struct text *answer, const struct library_lent *alone,
                      const uint8_t *output)
{
    const hj_verdict *verdicts = lent_list_at(&answers);
    const uint8_t *came = batch.octets;
    bool counted = false;

    for (size_t i = 0; i < batch.items; i++) {
        const uint8_t *sent = hj_item_output(output, i);

        text_string(answer, " / ");
        verdict_add(answer, verdicts[i], HJ_OUTPUT_ROOM * i, HJ_OUTPUT_ROOM);
        if (!verdict_agrees(verdicts[i], came, batch.lengths[i], sent) ||
            !is_single(alone, i, came, verdicts[i], sent))
            text_string(answer, " !");
        counted = counted || verdict_counts(verdicts[i]);
        came += batch.lengths[i];
    }
    lent_list_wrote(&answers, batch.items * sizeof *verdicts);
    return counted;
}

static bool lists_are_due(void)
{
    return lent_list_is_due(&lengths) && lent_list_is_due(&ports) &&
           lent_list_is_due(&slots) && lent_list_is_due(&seconds) &&
           lent_list_is_due(&octets) && lent_list_is_due(&answers);
}

bool answer_batch(const struct trace_word *arguments, struct text *answer)
{
    static hj_mission state;
    const struct library_lent *lent;
    struct library_lent alone;
    uint32_t refusal;
    uint8_t *output;
    bool heard, counted = false;

    if (!take_batch(arguments))
        return false;
    lend();
    output = lent_output(batch.room);
    lent = lent_relay(batch.mission);
    alone = *lent;
    state = *lent->mission;
    alone.mission = &state;
    refusal = call(lent, output);
    text_number(answer, refusal);
    heard = refusal == HJ_DONE && holds_items();
    if (heard)
        counted = add_items(answer, &alone, output);
    lent_relay_answer(answer, counted ? LENT_M : LENT_NONE);
    if (heard != (refusal == HJ_DONE) || !lists_are_due() ||
        !lent_rest_is_kept(heard ? HJ_OUTPUT_ROOM * batch.items : 0,
                           batch.room) ||
        memcmp(&state, lent->mission, sizeof state) != 0)
        text_string(answer, " !");
    return true;
}
