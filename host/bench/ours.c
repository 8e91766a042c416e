/*
 * ours.c: the calls of the bench on the library. What an answer does not say is
 * 0 in it, so it is cleared before the marks.
 */
#include "ours.h"

#include <string.h>

#include "batch.h"
#include "harpjuniper.h"
#include "shared/library.h"

static hj_board board;
static hj_mission missions[HJ_MISSIONS];
static hj_record routes[TRACE_MOST_RECORDS];

size_t bench_our_state(void)
{
    return sizeof board + sizeof missions;
}

size_t bench_our_record(void)
{
    return sizeof *routes;
}

static void receive(void)
{
    const uint32_t *n = bench_call.numbers;
    hj_arrival arrival = {n[0], (uint16_t)n[1], n[3]};
    hj_mission *mission = &missions[bench_call.mission];
    struct bench_answer *answer = &bench_call.answer;
    hj_verdict verdict;

    memset(answer, 0, sizeof *answer);
    bench_begin();
    verdict = hj_receive(&board, HJ_BOARD_WORDS, mission, HJ_MISSION_WORDS,
                         routes, bench_call.records, arrival,
                         bench_call.octets, bench_call.count, answer->output,
                         BENCH_HEADERS);
    bench_end();
    answer->refusal = hj_ended_by(verdict);
    answer->local = hj_local(verdict);
    answer->onward = hj_onward(verdict);
    answer->took = hj_took(verdict);
    answer->dropped = hj_dropped(verdict);
    answer->header = hj_data_from(verdict);
    answer->rewritten = hj_rewritten(verdict);
    answer->rewritten_octets = hj_rewritten_octets(verdict);
}

static void echo(void)
{
    const uint32_t *n = bench_call.numbers;
    hj_mission *mission = &missions[bench_call.mission];
    struct bench_answer *answer = &bench_call.answer;
    hj_verdict verdict;

    memset(answer, 0, sizeof *answer);
    bench_begin();
    verdict = hj_echo(&board, HJ_BOARD_WORDS, mission, HJ_MISSION_WORDS,
                      routes, bench_call.records, n[0], (uint16_t)n[1],
                      bench_call.octets, bench_call.count, answer->output,
                      sizeof answer->output);
    bench_end();
    answer->refusal = hj_ended_by(verdict);
    answer->onward = hj_onward(verdict);
    answer->took = hj_took(verdict);
    answer->dropped = hj_dropped(verdict);
    answer->octets = hj_reply_octets(verdict);
}

static void read_message(void)
{
    struct bench_answer *answer = &bench_call.answer;
    hj_message message;

    memset(answer, 0, sizeof *answer);
    bench_begin();
    hj_read_echo(bench_call.octets, bench_call.count, &message);
    bench_end();
    answer->refusal = message.refusal;
    answer->type = message.type;
    answer->identifier = message.identifier;
}

static void build_message(void)
{
    const uint32_t *n = bench_call.numbers;
    struct bench_answer *answer = &bench_call.answer;
    hj_answer built;

    memset(answer, 0, sizeof *answer);
    bench_begin();
    built = hj_build_request((uint16_t)n[1], (uint16_t)n[2],
                             bench_call.octets, bench_call.count,
                             answer->output, sizeof answer->output);
    bench_end();
    answer->refusal = hj_refusal(built);
    answer->octets = hj_value(built);
}

static void sweep(void)
{
    hj_mission *mission = &missions[bench_call.mission];
    struct bench_answer *answer = &bench_call.answer;

    memset(answer, 0, sizeof *answer);
    bench_begin();
    answer->refusal = hj_sweep(&board, HJ_BOARD_WORDS, mission,
                               HJ_MISSION_WORDS, bench_call.numbers[0]);
    bench_end();
    for (uint32_t i = 0; i < HJ_PAIRS; i++)
        answer->pairs +=
            hj_get_pair(mission, HJ_MISSION_WORDS, i).format != 0;
}

static void take(void)
{
    hj_mission *mission = &missions[bench_call.mission];
    struct bench_answer *answer = &bench_call.answer;
    hj_answer taken;

    memset(answer, 0, sizeof *answer);
    bench_begin();
    taken = hj_take(&board, HJ_BOARD_WORDS, mission, HJ_MISSION_WORDS,
                    bench_call.numbers[0]);
    bench_end();
    answer->refusal = hj_refusal(taken);
    answer->slot = hj_slot(taken);
    answer->precedence = hj_precedence(taken);
}

static void read_header(void)
{
    struct bench_answer *answer = &bench_call.answer;
    hj_reading reading;

    memset(answer, 0, sizeof *answer);
    bench_begin();
    reading = hj_read(bench_call.octets, bench_call.count);
    bench_end();
    answer->refusal = reading.refusal;
    answer->length = reading.length;
    answer->header = reading.header;
}

/* ---- Batches ------------------------------------------------------------- */

static hj_mission before, left;
static uint64_t verdicts[HJ_MOST_ITEMS];
static uint8_t headers[HJ_MOST_ITEMS * HJ_OUTPUT_ROOM];

void bench_ours_many(void)
{
    hj_mission *mission = &missions[bench_call.mission];
    struct bench_batch *b = &bench_batch;

    memset(b->output, 0, sizeof b->output);
    bench_begin();
    b->refusal = hj_receive_many(
        &board, HJ_BOARD_WORDS, mission, HJ_MISSION_WORDS, routes,
        bench_call.records, b->lengths, b->items, b->ports, b->items,
        b->slots, b->items, b->seconds, b->items, b->octets, b->count,
        b->answers, b->items, b->output, HJ_OUTPUT_ROOM * b->items);
    bench_end();
}

void bench_ours_before(void)
{
    before = missions[bench_call.mission];
}

/* The verdict is told by its parts, all of which are there. */
void bench_ours_after_item(size_t item)
{
    const struct bench_answer *told = &bench_call.answer;

    verdicts[item] = (uint64_t)told->refusal | (uint64_t)told->local << 8 |
                     (uint64_t)told->onward << 16 |
                     (uint64_t)told->took << 24 |
                     (uint64_t)told->dropped << 32 |
                     (uint64_t)told->header << 40 |
                     (uint64_t)told->rewritten_octets << 48 |
                     (uint64_t)told->rewritten << 56;
    memcpy(headers + HJ_OUTPUT_ROOM * item, told->output, HJ_OUTPUT_ROOM);
}

void bench_ours_again(void)
{
    left = missions[bench_call.mission];
    missions[bench_call.mission] = before;
}

bool bench_ours_alike(void)
{
    const struct bench_batch *b = &bench_batch;

    return b->refusal == HJ_DONE &&
           memcmp(&left, &missions[bench_call.mission], sizeof left) == 0 &&
           memcmp(verdicts, b->answers, b->items * sizeof *verdicts) == 0 &&
           memcmp(headers, b->output, HJ_OUTPUT_ROOM * b->items) == 0;
}

/* ---- All calls ----------------------------------------------------------- */

void (*const bench_ours[CALLS])(void) = {
    [CALL_RECEIVE] = receive,
    [CALL_ECHO] = echo,
    [CALL_READ_ECHO] = read_message,
    [CALL_BUILD_REQUEST] = build_message,
    [CALL_SWEEP] = sweep,
    [CALL_TAKE] = take,
    [CALL_READ] = read_header,
};

static struct library_lent lent(uint32_t mission)
{
    struct library_lent lent = {&board, HJ_BOARD_WORDS, &missions[mission],
                                HJ_MISSION_WORDS, routes, bench_call.records};

    return lent;
}

void bench_ours_set(void)
{
    struct library_lent all = lent(bench_call.mission);

    library_call(bench_call.which, &all, bench_call.numbers);
}

void bench_ours_new(void)
{
    for (uint32_t i = 0; i < HJ_MISSIONS; i++) {
        struct library_lent all = lent(i);

        library_call(CALL_FRESH_BOARD, &all, NULL);
        library_call(CALL_FRESH_MISSION, &all, &i);
    }
}

void bench_ours_records(void)
{
    memset(routes, 0, sizeof routes);
}
