/*
 * plain.c: the calls of the bench on host/plain, as ours.c makes them on the
 * library. The awkward case is a refusal: plain then writes nothing to its
 * result, which is therefore cleared too.
 */
#include "plain.h"

#include <string.h>

#include "plain/plain_header.h"
#include "plain/plain_message.h"
#include "plain/plain_relay.h"
#include "shared/plainly.h"

static struct plainly relay;
static plain_record records[TRACE_MOST_RECORDS];

static plain_list list(void)
{
    plain_list list = {records, bench_call.records};

    return list;
}

size_t bench_plain_state(void)
{
    return sizeof relay;
}

size_t bench_plain_record(void)
{
    return sizeof *records;
}

static void receive(void)
{
    const uint32_t *n = bench_call.numbers;
    struct bench_answer *answer = &bench_call.answer;
    plain_view view = plainly_view(&relay, bench_call.mission, list());
    plain_slot slot = {(uint16_t)n[1]};
    plain_verdict verdict;

    memset(answer, 0, sizeof *answer);
    bench_begin();
    verdict = plain_receive(&view, n[0], slot, n[3], bench_call.octets,
                            bench_call.count, answer->output, BENCH_HEADERS);
    bench_end();
    answer->refusal = verdict.refusal;
    answer->local = verdict.local;
    answer->onward = verdict.onward;
    answer->took = verdict.took.bits;
    answer->dropped = verdict.dropped.bits;
    answer->header = verdict.arriving_octets;
    answer->rewritten = verdict.rewritten.bits;
    answer->rewritten_octets = verdict.rewritten_octets;
}

static void echo(void)
{
    const uint32_t *n = bench_call.numbers;
    struct bench_answer *answer = &bench_call.answer;
    plain_view view = plainly_view(&relay, bench_call.mission, list());
    plain_slot slot = {(uint16_t)n[1]};
    plain_echoed echoed;

    memset(answer, 0, sizeof *answer);
    bench_begin();
    echoed = plain_echo(&view, n[0], slot, bench_call.octets,
                        bench_call.count, answer->output,
                        sizeof answer->output);
    bench_end();
    answer->refusal = echoed.refusal;
    answer->onward = echoed.onward;
    answer->took = echoed.took.bits;
    answer->dropped = echoed.dropped.bits;
    answer->octets = echoed.reply_octets;
}

static void read_message(void)
{
    struct bench_answer *answer = &bench_call.answer;
    plain_message message;
    plain_refusal refusal;

    memset(answer, 0, sizeof *answer);
    memset(&message, 0, sizeof message);
    bench_begin();
    refusal =
        plain_message_read(bench_call.octets, bench_call.count, &message);
    bench_end();
    answer->refusal = refusal;
    answer->type = message.type;
    answer->identifier = message.identifier;
}

static void build_message(void)
{
    const uint32_t *n = bench_call.numbers;
    struct bench_answer *answer = &bench_call.answer;
    plain_message message = {.identifier = (uint16_t)n[1],
                             .sequence = (uint16_t)n[2],
                             .data = bench_call.octets,
                             .data_octets = bench_call.count};
    size_t written = 0;
    plain_refusal refusal;

    memset(answer, 0, sizeof *answer);
    bench_begin();
    refusal = plain_request_build(&message, answer->output,
                                  sizeof answer->output, &written);
    bench_end();
    answer->refusal = refusal;
    answer->octets = (uint32_t)written;
}

static void sweep(void)
{
    struct bench_answer *answer = &bench_call.answer;
    plain_view view = plainly_view(&relay, bench_call.mission, list());

    memset(answer, 0, sizeof *answer);
    bench_begin();
    answer->refusal = plain_sweep(&view, bench_call.numbers[0]);
    bench_end();
    for (uint32_t i = 0; i < PLAIN_PAIRS; i++)
        answer->pairs += view.mission->pairs[i].format != 0;
}

static void take(void)
{
    struct bench_answer *answer = &bench_call.answer;
    plain_view view = plainly_view(&relay, bench_call.mission, list());
    plain_entry entry = {{0}, 0};
    plain_refusal refusal;

    memset(answer, 0, sizeof *answer);
    bench_begin();
    refusal = plain_take(&view, bench_call.numbers[0], &entry);
    bench_end();
    answer->refusal = refusal;
    answer->slot = entry.slot.number;
    answer->precedence = entry.precedence;
}

static void read_header(void)
{
    struct bench_answer *answer = &bench_call.answer;
    plain_header header;
    plain_refusal refusal;

    memset(answer, 0, sizeof *answer);
    memset(&header, 0, sizeof header);
    bench_begin();
    refusal = plain_header_read(bench_call.octets, bench_call.count, &header);
    bench_end();
    answer->refusal = refusal;
    answer->length = header.length;
    answer->header = header.header_length;
}

void (*const bench_plain[CALLS])(void) = {
    [CALL_RECEIVE] = receive,
    [CALL_ECHO] = echo,
    [CALL_READ_ECHO] = read_message,
    [CALL_BUILD_REQUEST] = build_message,
    [CALL_SWEEP] = sweep,
    [CALL_TAKE] = take,
    [CALL_READ] = read_header,
};

void bench_plain_set(void)
{
    plainly_set(&relay, bench_call.mission, list(), bench_call.which,
                bench_call.numbers);
}

void bench_plain_new(void)
{
    plain_board_fresh(&relay.board);
    for (uint32_t i = 0; i < PLAIN_MISSIONS; i++)
        plain_mission_fresh(&relay.missions[i], i);
}

void bench_plain_records(void)
{
    memset(records, 0, sizeof records);
}
