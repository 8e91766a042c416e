/*
 * The words of the relay: new, the settings, the list of routes, receive,
 * batch, echo, sweep, pairs, take, counters, waiting and search. Numbers are as
 * wide as the library's, so that a place 700 or a port 9 reaches it and gets
 * its refusal; only a slot has 16 bits, and a mission is 0 or 1.
 *
 * The awkward cases: new, records and record have no answer, and so their
 * lines have no " = "; and pairs are answered in an order of their own, since
 * the places in which an implementation keeps them are its own affair.
 */
#include <stdlib.h>
#include <string.h>

#include "plain_relay.h"
#include "plain_words.h"

static bool take_number(plain_word word, uint32_t *number)
{
    return plain_word_number(word, UINT32_MAX, number);
}

static bool take_mission(plain_word word, uint32_t *number)
{
    return plain_word_number(word, PLAIN_MISSIONS - 1, number);
}

static bool put_refusal(plain_session *session, plain_refusal refusal)
{
    plain_text_string(&session->text, " = ");
    plain_text_decimal(&session->text, refusal);
    return true;
}

static void put_number(plain_session *session, uint32_t number)
{
    plain_text_string(&session->text, " ");
    plain_text_decimal(&session->text, number);
}

/* The view of the mission that the word names, with the list as it stands. */
static bool take_view(plain_session *session, plain_word word,
                      plain_view *view)
{
    uint32_t number;

    if (!take_mission(word, &number))
        return false;
    view->board = &session->board;
    view->mission = &session->missions[number];
    view->routes.records = session->records;
    view->routes.count = session->record_count;
    return true;
}

static plain_list the_list(plain_session *session)
{
    plain_list list = {session->records, session->record_count};
    return list;
}

static void empty_list(plain_session *session, uint32_t count)
{
    memset(session->records, 0, sizeof session->records);
    session->record_count = count;
}

void plain_session_fresh(plain_session *session)
{
    plain_board_fresh(&session->board);
    for (uint32_t number = 0; number < PLAIN_MISSIONS; number++)
        plain_mission_fresh(&session->missions[number], number);
    empty_list(session, PLAIN_ROUTES);
}

static bool answer_new(plain_session *session, const plain_word *arguments)
{
    (void)arguments;
    plain_session_fresh(session);
    return true;
}

/* The one list there is: list 0. */
static bool is_list(plain_word word)
{
    uint32_t list;

    return plain_word_number(word, 0, &list);
}

static bool answer_records(plain_session *session, const plain_word *arguments)
{
    uint32_t count;

    if (!is_list(arguments[0]) ||
        !plain_word_number(arguments[1], PLAIN_LIST_MOST, &count))
        return false;
    empty_list(session, count);
    return true;
}

static bool take_record(const plain_word *words, uint32_t codes,
                        plain_record *record)
{
    return plain_word_bits(words[0], &record->prefix.bits) &&
           plain_word_bits(words[1], &record->mask.bits) &&
           plain_word_number(words[2], codes, &record->port) &&
           plain_word_number(words[3], codes, &record->availability) &&
           plain_word_number(words[4], codes, &record->capabilities) &&
           take_mission(words[5], &record->mission);
}

static bool answer_record(plain_session *session, const plain_word *arguments)
{
    static const plain_record empty;
    plain_record record;
    uint32_t place;

    if (!is_list(arguments[0]) || !take_number(arguments[1], &place) ||
        !take_number(arguments[2], &record.filled) ||
        !take_record(arguments + 3, UINT8_MAX, &record))
        return false;
    if (place < session->record_count)
        session->records[place] = record.filled != 0 ? record : empty;
    return true;
}

static bool answer_set_router(plain_session *session,
                              const plain_word *arguments)
{
    uint32_t router;

    if (!take_number(arguments[0], &router))
        return false;
    return put_refusal(session, plain_set_router(&session->board, router));
}

static bool answer_set_lifetime(plain_session *session,
                                const plain_word *arguments)
{
    uint32_t lifetime;

    if (!take_number(arguments[0], &lifetime))
        return false;
    return put_refusal(session,
                       plain_set_lifetime(&session->board, lifetime));
}

static bool answer_set_echo_drop(plain_session *session,
                                 const plain_word *arguments)
{
    uint32_t drop;

    if (!take_number(arguments[0], &drop))
        return false;
    return put_refusal(session, plain_set_echo_drop(&session->board, drop));
}

static bool answer_set_port(plain_session *session,
                            const plain_word *arguments)
{
    uint32_t number;
    plain_port port;

    if (!take_number(arguments[0], &number) ||
        !plain_word_bits(arguments[1], &port.address.bits) ||
        !plain_word_bits(arguments[2], &port.mask.bits) ||
        !take_number(arguments[3], &port.mtu) ||
        !take_mission(arguments[4], &port.mission))
        return false;
    return put_refusal(session,
                       plain_set_port(&session->board, number, &port));
}

static bool answer_set_route(plain_session *session,
                             const plain_word *arguments)
{
    uint32_t place;
    plain_record record;

    if (!take_number(arguments[0], &place) ||
        !take_record(arguments + 1, UINT32_MAX, &record))
        return false;
    record.filled = 1;
    return put_refusal(session,
                       plain_set_route(&session->board, the_list(session),
                                       place, &record));
}

static bool answer_set_group(plain_session *session,
                             const plain_word *arguments)
{
    uint32_t place;
    plain_group group;
    plain_view view;

    if (!take_number(arguments[0], &place) ||
        !plain_word_bits(arguments[1], &group.address.bits) ||
        !take_number(arguments[2], &group.send.bits) ||
        !take_number(arguments[3], &group.subscribed.bits) ||
        !take_view(session, arguments[4], &view))
        return false;
    return put_refusal(session, plain_set_group(&view, place, &group));
}

static bool answer_set_path(plain_session *session,
                            const plain_word *arguments)
{
    uint32_t place;
    plain_path_place path;
    plain_view view;

    if (!take_number(arguments[0], &place) ||
        !plain_word_bits(arguments[1], &path.path.bits) ||
        !take_number(arguments[2], &path.send.bits) ||
        !take_number(arguments[3], &path.here) ||
        !take_view(session, arguments[4], &view))
        return false;
    return put_refusal(session, plain_set_path(&view, place, &path));
}

static bool answer_clear_route(plain_session *session,
                               const plain_word *arguments)
{
    uint32_t place;

    if (!take_number(arguments[0], &place))
        return false;
    return put_refusal(session,
                       plain_clear_route(the_list(session), place));
}

static bool answer_clear_group(plain_session *session,
                               const plain_word *arguments)
{
    uint32_t place;
    plain_view view;

    if (!take_number(arguments[0], &place) ||
        !take_view(session, arguments[1], &view))
        return false;
    return put_refusal(session, plain_clear_group(view.mission, place));
}

static bool answer_clear_path(plain_session *session,
                              const plain_word *arguments)
{
    uint32_t place;
    plain_view view;

    if (!take_number(arguments[0], &place) ||
        !take_view(session, arguments[1], &view))
        return false;
    return put_refusal(session, plain_clear_path(view.mission, place));
}

/* The stretches of these ports in the output that begins there, or "-" for
 * none. */
static void put_outputs(plain_session *session, uint32_t from, plain_set ports)
{
    bool first = true;

    if (ports.bits == 0)
        plain_text_string(&session->text, "-");
    for (uint32_t port = 0; port < PLAIN_PORTS; port++) {
        if (!plain_set_has(ports, port))
            continue;
        if (!first)
            plain_text_string(&session->text, ",");
        first = false;
        plain_output_stretch(session, from + plain_header_at(port),
                             PLAIN_HEADER_MOST);
    }
}

/* What receive answers of one datagram, and " !" where an octet of its output,
 * from there to the end, changed outside the stretches of its ports. */
static void put_verdict(plain_session *session, const plain_verdict *verdict,
                        uint32_t from, uint32_t end)
{
    put_number(session, verdict->refusal);
    put_number(session, verdict->local);
    put_number(session, verdict->onward);
    put_number(session, verdict->took.bits);
    plain_text_string(&session->text, " ");
    put_outputs(session, from, verdict->took);
    plain_output_rest(session, from, end);
}

/* What receive and echo are both lent; the octets are the session's. */
typedef struct {
    uint32_t port;
    plain_slot slot;
    uint32_t room;
} arrival;

static bool take_arrival(plain_session *session, const plain_word *words,
                         arrival *lent)
{
    uint32_t slot;

    if (!take_number(words[0], &lent->port) ||
        !plain_word_number(words[1], UINT16_MAX, &slot) ||
        !plain_word_number(words[2], PLAIN_ROOM_MOST, &lent->room) ||
        !plain_word_octets(words[3], &session->octets))
        return false;
    lent->slot.number = (uint16_t)slot;
    return true;
}

static bool answer_receive(plain_session *session,
                           const plain_word *arguments)
{
    plain_octets *octets = &session->octets;
    uint32_t second;
    arrival lent;
    plain_view view;
    plain_verdict verdict;

    if (!take_arrival(session, arguments, &lent) ||
        !take_number(arguments[4], &second) ||
        !take_view(session, arguments[5], &view))
        return false;
    plain_output_lend(session, lent.room);
    verdict = plain_receive(&view, lent.port, lent.slot, second,
                            octets->start, octets->count, session->output,
                            lent.room);
    plain_text_string(&session->text, " =");
    put_verdict(session, &verdict, 0, plain_output_end(lent.room));
    return true;
}

/* The lists and the octets of a batch, which the session holds. */
static bool take_batch(plain_session *session, const plain_word *words,
                       plain_batch *batch)
{
    const plain_numbers *slots = &session->slot_numbers;
    const plain_octets *octets = &session->octets;

    if (!plain_word_numbers(words[0], UINT32_MAX, &session->lengths) ||
        !plain_word_numbers(words[1], UINT32_MAX, &session->ports) ||
        !plain_word_numbers(words[2], UINT16_MAX, &session->slot_numbers) ||
        !plain_word_numbers(words[3], UINT32_MAX, &session->seconds) ||
        !plain_word_octets(words[4], &session->octets))
        return false;
    for (size_t at = 0; at < slots->count; at++)
        session->slots[at].number = (uint16_t)slots->numbers[at];
    batch->lengths = session->lengths.numbers;
    batch->length_count = session->lengths.count;
    batch->ports = session->ports.numbers;
    batch->port_count = session->ports.count;
    batch->slots = session->slots;
    batch->slot_count = slots->count;
    batch->seconds = session->seconds.numbers;
    batch->second_count = session->seconds.count;
    batch->octets = octets->start;
    batch->octet_count = octets->count;
    return true;
}

static bool answer_batch(plain_session *session, const plain_word *arguments)
{
    uint32_t room;
    uint32_t from = 0;
    size_t answered;
    plain_batch batch;
    plain_view view;
    plain_refusal refusal;

    if (!plain_word_number(arguments[0], PLAIN_ROOM_MOST, &room) ||
        !take_batch(session, arguments + 1, &batch) ||
        !take_view(session, arguments[6], &view))
        return false;
    plain_output_lend(session, room);
    refusal = plain_receive_many(&view, &batch, session->verdicts,
                                 batch.length_count, session->output, room);
    put_refusal(session, refusal);
    answered = refusal == PLAIN_GOOD ? batch.length_count : 0;
    for (size_t at = 0; at < answered; at++) {
        plain_text_string(&session->text, " /");
        put_verdict(session, &session->verdicts[at], from,
                    from + PLAIN_OUTPUT_ROOM);
        from += PLAIN_OUTPUT_ROOM;
    }
    plain_output_rest(session, from, plain_output_end(room));
    return true;
}

static bool answer_echo(plain_session *session, const plain_word *arguments)
{
    plain_octets *octets = &session->octets;
    arrival lent;
    plain_view view;
    plain_echoed echoed;

    if (!take_arrival(session, arguments, &lent) ||
        !take_view(session, arguments[4], &view))
        return false;
    plain_output_lend(session, lent.room);
    echoed = plain_echo(&view, lent.port, lent.slot, octets->start,
                        octets->count, session->output, lent.room);
    put_refusal(session, echoed.refusal);
    put_number(session, echoed.onward);
    put_number(session, echoed.took.bits);
    plain_text_string(&session->text, " ");
    plain_output_answer(session, lent.room, echoed.reply_octets);
    return true;
}

static bool answer_sweep(plain_session *session, const plain_word *arguments)
{
    uint32_t second;
    plain_view view;

    if (!take_number(arguments[0], &second) ||
        !take_view(session, arguments[1], &view))
        return false;
    return put_refusal(session, plain_sweep(&view, second));
}

static int order_of(uint64_t one, uint64_t other)
{
    return (one > other) - (one < other);
}

/* By source, format and timestamp octet by octet. Timestamps of one format and
 * P-field are equally long, so that their numbers are in the octets' order. */
static int compare_pairs(const void *left, const void *right)
{
    const plain_pair *one = left;
    const plain_pair *other = right;
    int order = order_of(one->source.bits, other->source.bits);

    if (order == 0)
        order = order_of(one->format, other->format);
    if (order == 0)
        order = order_of(one->p_field, other->p_field);
    return order != 0 ? order : order_of(one->time, other->time);
}

static void put_pair(plain_text *text, const plain_pair *pair)
{
    plain_text_digits(text, pair->source.bits, 8);
    plain_text_string(text, ":");
    plain_text_decimal(text, pair->format);
    plain_text_string(text, ":");
    plain_stamp_answer(text, pair->format, pair->p_field, pair->time);
    plain_text_string(text, ":");
    plain_text_decimal(text, pair->second);
}

static bool answer_pairs(plain_session *session, const plain_word *arguments)
{
    plain_pair held[PLAIN_PAIRS];
    size_t count = 0;
    plain_view view;

    if (!take_view(session, arguments[0], &view))
        return false;
    for (size_t at = 0; at < PLAIN_PAIRS; at++)
        if (view.mission->pairs[at].format != PLAIN_STAMP_NONE)
            held[count++] = view.mission->pairs[at];
    qsort(held, count, sizeof *held, compare_pairs);
    plain_text_string(&session->text, count > 0 ? " = " : " = -");
    for (size_t at = 0; at < count; at++) {
        if (at > 0)
            plain_text_string(&session->text, ",");
        put_pair(&session->text, &held[at]);
    }
    return true;
}

static bool answer_take(plain_session *session, const plain_word *arguments)
{
    plain_entry entry = {{0}, 0};
    plain_view view;
    uint32_t port;

    if (!take_number(arguments[0], &port) ||
        !take_view(session, arguments[1], &view))
        return false;
    put_refusal(session, plain_take(&view, port, &entry));
    put_number(session, entry.slot.number);
    put_number(session, entry.precedence);
    return true;
}

static bool answer_counters(plain_session *session,
                            const plain_word *arguments)
{
    plain_view view;

    if (!take_view(session, arguments[0], &view))
        return false;
    plain_text_string(&session->text, " =");
    for (size_t at = 0; at < PLAIN_COUNTERS; at++)
        put_number(session, view.mission->counters.counts[at]);
    return true;
}

static bool answer_waiting(plain_session *session,
                           const plain_word *arguments)
{
    uint32_t port;
    uint32_t waiting = 0;
    plain_view view;
    plain_refusal refusal;

    if (!take_number(arguments[0], &port) ||
        !take_view(session, arguments[1], &view))
        return false;
    refusal = plain_waiting(view.mission, port, &waiting);
    plain_text_string(&session->text, refusal == PLAIN_GOOD ? " = " : " = !");
    plain_text_decimal(&session->text,
                       refusal == PLAIN_GOOD ? waiting : (uint32_t)refusal);
    return true;
}

static bool answer_search(plain_session *session, const plain_word *arguments)
{
    plain_address address;
    plain_view view;
    plain_found found;

    if (!plain_word_bits(arguments[0], &address.bits) ||
        !take_view(session, arguments[1], &view))
        return false;
    found = plain_search(&view, address);
    if (found.refusal != PLAIN_GOOD)
        return put_refusal(session, found.refusal);
    plain_text_string(&session->text, found.found ? " =" : " = -");
    if (!found.found)
        return true;
    put_number(session, found.place);
    put_number(session, found.ones);
    put_number(session, found.port);
    return true;
}

const plain_meaning plain_relay_words[] = {
    {"receive", 6, answer_receive},
    {"batch", 7, answer_batch},
    {"echo", 5, answer_echo},
    {"take", 2, answer_take},
    {"sweep", 2, answer_sweep},
    {"pairs", 1, answer_pairs},
    {"counters", 1, answer_counters},
    {"waiting", 2, answer_waiting},
    {"search", 2, answer_search},
    {"record", 9, answer_record},
    {"records", 2, answer_records},
    {"new", 0, answer_new},
    {"set_router", 1, answer_set_router},
    {"set_lifetime", 1, answer_set_lifetime},
    {"set_echo_drop", 1, answer_set_echo_drop},
    {"set_port", 5, answer_set_port},
    {"set_route", 7, answer_set_route},
    {"set_group", 5, answer_set_group},
    {"set_path", 5, answer_set_path},
    {"clear_route", 1, answer_clear_route},
    {"clear_group", 2, answer_clear_group},
    {"clear_path", 2, answer_clear_path},
    {NULL, 0, NULL},
};
