/*
 * ours.c: the calls of the soak on the library. An empty piece is lent as a
 * null pointer by whoever calls this; nothing is looked at here.
 */
#include "ours.h"

#include <stdlib.h>
#include <string.h>

#include "shared/library.h"

/* A row of uint32_t, as the library's structures are. */
static void put_row(uint64_t *parts, const void *row, size_t octets)
{
    const uint32_t *numbers = (const uint32_t *)row;

    for (size_t i = 0; i < octets / sizeof *numbers; i++)
        parts[i] = numbers[i];
}

/* The fields alone begin with wider numbers, up to the TP-ID. */
static void put_fields(uint64_t *parts, const hj_fields *fields)
{
    size_t wide = offsetof(hj_fields, tp_id);

    memcpy(parts, fields, wide);
    put_row(parts + wide / sizeof *parts, (const uint8_t *)fields + wide,
            sizeof *fields - wide);
}

static void read_header(const struct soak_call *call, const uint8_t *octets,
                        uint64_t *parts)
{
    hj_reading reading = hj_read(octets, call->count);

    parts[0] = reading.refusal;
    parts[1] = reading.length;
    parts[2] = reading.header;
    put_fields(parts + 3, &reading.fields);
}

static void put_answer(uint64_t *parts, hj_answer answer)
{
    parts[0] = hj_refusal(answer);
    parts[1] = hj_value(answer);
}

static void read_message(const struct soak_call *call, const uint8_t *octets,
                         uint64_t *parts)
{
    hj_message message;

    parts[0] = hj_read_echo(octets, call->count, &message);
    parts[1] = message.type;
    parts[2] = message.identifier;
    parts[3] = message.sequence;
    parts[4] = message.data_from;
    parts[5] = message.hop_count;
    parts[6] = message.format;
    parts[7] = message.stamp;
    parts[8] = message.mtu;
    parts[9] = message.rate;
}

/* The numbers in the order of hj_build_reply, the timestamp as two. */
static hj_answer build_message(const struct soak_call *call,
                               const uint8_t *data, uint8_t *output)
{
    const uint32_t *n = call->numbers;
    hj_message message = {0};

    message.type = call->which == CALL_BUILD_REQUEST ? HJ_ECHO_REQUEST
                                                     : HJ_ECHO_REPLY;
    message.identifier = (uint16_t)n[0];
    message.sequence = (uint16_t)n[1];
    message.hop_count = (uint8_t)n[2];
    message.format = (uint8_t)n[3];
    message.stamp = (uint64_t)n[4] << 32 | n[5];
    message.mtu = n[6];
    message.rate = n[7];
    return hj_build_echo(&message, data, call->count, output, call->room);
}

static void stateless(const struct soak_call *call, const uint8_t *octets,
                      uint8_t *output, uint64_t *parts)
{
    switch (call->which) {
    case CALL_READ:
        read_header(call, octets, parts);
        break;
    case CALL_BUILD:
        put_answer(parts,
                   hj_build(call->fields, call->data, output, call->room));
        break;
    case CALL_CLASS:
        parts[1] = hj_class(call->numbers[0]);
        break;
    case CALL_PATH:
        parts[1] = hj_path(call->numbers[0]);
        break;
    case CALL_CHECKSUM:
        parts[1] = hj_checksum(octets, call->count);
        break;
    case CALL_READ_ECHO:
        read_message(call, octets, parts);
        break;
    case CALL_BUILD_REQUEST:
    case CALL_BUILD_REPLY:
        put_answer(parts, build_message(call, octets, output));
        break;
    case CALL_BOARD_WORDS:
        parts[1] = hj_board_words();
        break;
    case CALL_MISSION_WORDS:
        parts[1] = hj_mission_words();
        break;
    default:
        abort(); /* a row of calls.def that has no code here */
    }
}

void soak_tell(hj_verdict verdict, struct soak_answer *answer)
{
    answer->parts[0] = hj_ended_by(verdict);
    answer->parts[TOLD_LOCAL] = hj_local(verdict);
    answer->parts[TOLD_ONWARD] = hj_onward(verdict);
    answer->parts[TOLD_TOOK] = hj_took(verdict);
    answer->parts[TOLD_DROPPED] = hj_dropped(verdict);
    answer->parts[TOLD_DATA_FROM] = hj_data_from(verdict);
    answer->parts[TOLD_REWRITTEN_OCTETS] = hj_rewritten_octets(verdict);
    answer->parts[TOLD_REWRITTEN] = hj_rewritten(verdict);
}

static void receive(const struct soak_call *call,
                    const struct library_lent *lent, const uint8_t *octets,
                    uint8_t *output, struct soak_answer *answer)
{
    hj_arrival arrival = {call->numbers[0], (uint16_t)call->numbers[1],
                          call->numbers[2]};

    soak_tell(hj_receive(lent->board, lent->board_words, lent->mission,
                         lent->mission_words, lent->routes, lent->route_count,
                         arrival, octets, call->count, output, call->room),
              answer);
}

/* Where the call did what it was to refuse, there may be more answers than a
 * batch can have. */
static void receive_many(const struct soak_call *call,
                         const struct soak_pieces *lent,
                         struct soak_answer *answer)
{
    const struct library_lent *relay = &lent->lent;
    const size_t *counts = call->batch.counts;
    size_t items = counts[LIST_ANSWERS];

    answer->parts[0] = hj_receive_many(
        relay->board, relay->board_words, relay->mission,
        relay->mission_words, relay->routes, relay->route_count,
        lent->lists[LIST_LENGTHS], counts[LIST_LENGTHS],
        lent->lists[LIST_PORTS], counts[LIST_PORTS], lent->lists[LIST_SLOTS],
        counts[LIST_SLOTS], lent->lists[LIST_SECONDS], counts[LIST_SECONDS],
        lent->octets, call->count, lent->lists[LIST_ANSWERS], items,
        lent->output, call->room);
    if (items > HJ_MOST_ITEMS)
        items = HJ_MOST_ITEMS;
    if (answer->parts[0] == HJ_DONE && items > 0)
        memcpy(answer->items, lent->lists[LIST_ANSWERS],
               items * sizeof *answer->items);
}

static void echo(const struct soak_call *call, const struct library_lent *lent,
                 const uint8_t *octets, uint8_t *output,
                 struct soak_answer *answer)
{
    hj_verdict verdict =
        hj_echo(lent->board, lent->board_words, lent->mission,
                lent->mission_words, lent->routes, lent->route_count,
                call->numbers[0], (uint16_t)call->numbers[1], octets,
                call->count, output, call->room);

    answer->parts[0] = hj_ended_by(verdict);
    answer->parts[TOLD_LOCAL] = hj_local(verdict);
    answer->parts[TOLD_ONWARD] = hj_onward(verdict);
    answer->parts[TOLD_TOOK] = hj_took(verdict);
    answer->parts[TOLD_DROPPED] = hj_dropped(verdict);
    answer->parts[TOLD_REWRITTEN] = verdict >> 56; /* 0 here */
    answer->parts[TOLD_REPLY_OCTETS] = hj_reply_octets(verdict);
}

static void put_taken(uint64_t *parts, hj_answer taken)
{
    parts[0] = hj_refusal(taken);
    parts[1] = hj_slot(taken);
    parts[2] = hj_precedence(taken);
}

static void put_found(uint64_t *parts, hj_found found)
{
    parts[0] = hj_found_refusal(found);
    parts[1] = hj_is_found(found);
    parts[2] = hj_found_place(found);
    parts[3] = hj_found_ones(found);
    parts[4] = hj_found_port(found);
    parts[5] = found >> 48;
}

/* The calls that are lent something and take numbers alone. */
static void by_numbers(const struct soak_call *call,
                       const struct library_lent *lent, uint64_t *parts)
{
    uint64_t got = library_call(call->which, lent, call->numbers);

    if (call_sets(call->which))
        parts[0] = got;
    else if (call->which == CALL_TAKE)
        put_taken(parts, got);
    else if (call->which == CALL_SEARCH)
        put_found(parts, got);
    else
        put_answer(parts, got);
}

void soak_ours(const struct soak_call *call, const struct soak_pieces *lent,
               struct soak_answer *answer)
{
    memset(answer, 0, sizeof *answer);
    if (!call_has_state(call->which))
        stateless(call, lent->octets, lent->output, answer->parts);
    else if (call->which == CALL_RECEIVE)
        receive(call, &lent->lent, lent->octets, lent->output, answer);
    else if (call->which == CALL_RECEIVE_MANY)
        receive_many(call, lent, answer);
    else if (call->which == CALL_ECHO)
        echo(call, &lent->lent, lent->octets, lent->output, answer);
    else
        by_numbers(call, &lent->lent, answer->parts);
}
