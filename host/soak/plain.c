/*
 * plain.c: the calls of the soak on host/plain, whose relay has lived through
 * the same history. Its answers are put into the form of the library's.
 *
 * The awkward case is the list, whose records are of another type in plain: it
 * is copied to plain's records and back.
 */
#include "plain.h"

#include <stdlib.h>
#include <string.h>

#include "plain/plain_checksum.h"
#include "plain/plain_header.h"
#include "plain/plain_message.h"
#include "plain/plain_relay.h"
#include "shared/plainly.h"

static struct plainly relay;
static plain_record records[SOAK_MOST_RECORDS];

/* In the order of hj_fields. */
static void put_fields(uint64_t *parts, const plain_fields *fields)
{
    const uint64_t all[] = {
        fields->destination.high,  fields->destination.low,
        fields->source.high,       fields->source.low,
        fields->time,              fields->tp_id,
        fields->source_present,    fields->extended,
        fields->ipv6,              fields->basic_qos_present,
        fields->precedence,        fields->routing,
        fields->program,           fields->hop_present,
        fields->hop,               fields->stamp_format,
        fields->p_field,           fields->expanded_present,
        fields->expanded,          fields->checksum_present,
        fields->intermediate};

    memcpy(parts, all, sizeof all);
}

static void read_header(const struct soak_call *call, uint64_t *parts)
{
    plain_header header;

    parts[0] = plain_header_read(call->octets, call->count, &header);
    if (parts[0] != PLAIN_GOOD)
        return;
    parts[1] = header.length;
    parts[2] = header.header_length;
    put_fields(parts + 3, &header.fields);
}

static void build(const struct soak_call *call, uint8_t *output,
                  uint64_t *parts)
{
    const hj_fields *f = &call->fields;
    plain_fields fields = {f->tp_id,
                           f->has_source,
                           f->extended,
                           f->ipv6,
                           {f->destination_high, f->destination_low},
                           {f->source_high, f->source_low},
                           f->has_qos,
                           f->precedence,
                           f->routing,
                           f->program,
                           f->has_hop_count,
                           f->hop_count,
                           f->stamp_format,
                           f->p_field,
                           f->time,
                           f->has_expanded,
                           f->expanded,
                           f->has_checksum,
                           f->intermediate};
    uint32_t header = 0;

    parts[0] = plain_header_build(&fields, (uint32_t)call->data, output,
                                  call->room, &header);
    parts[1] = parts[0] == PLAIN_GOOD ? header : 0;
}

static void read_message(const struct soak_call *call, uint64_t *parts)
{
    plain_message message;

    parts[0] = plain_message_read(call->octets, call->count, &message);
    if (parts[0] != PLAIN_GOOD)
        return;
    parts[1] = message.type;
    parts[2] = message.identifier;
    parts[3] = message.sequence;
    parts[4] = (uint64_t)(message.data - call->octets);
    parts[5] = message.hops;
    parts[6] = message.format;
    parts[7] = message.timestamp;
    parts[8] = message.mtu;
    parts[9] = message.rate;
}

static void build_message(const struct soak_call *call, uint8_t *output,
                          uint64_t *parts)
{
    const uint32_t *n = call->numbers;
    plain_message message = {.identifier = (uint16_t)n[0],
                             .sequence = (uint16_t)n[1],
                             .hops = (uint8_t)n[2],
                             .format = (uint8_t)n[3],
                             .timestamp = (uint64_t)n[4] << 32 | n[5],
                             .mtu = n[6],
                             .rate = n[7],
                             .data = call->octets,
                             .data_octets = call->count};
    size_t written = 0;

    parts[0] = call->which == CALL_BUILD_REQUEST
                   ? plain_request_build(&message, output, call->room,
                                         &written)
                   : plain_reply_build(&message, output, call->room,
                                       &written);
    parts[1] = parts[0] == PLAIN_GOOD ? written : 0;
}

static void stateless(const struct soak_call *call, uint8_t *output,
                      uint64_t *parts)
{
    plain_address address = {call->numbers[0]};
    plain_path path = {call->numbers[0]};

    if (call->which == CALL_READ)
        read_header(call, parts);
    else if (call->which == CALL_BUILD)
        build(call, output, parts);
    else if (call->which == CALL_CLASS)
        parts[1] = plain_address_class(address);
    else if (call->which == CALL_PATH)
        parts[1] = plain_path_valid(path);
    else if (call->which == CALL_CHECKSUM)
        parts[1] = plain_checksum(call->octets, call->count);
    else if (call->which == CALL_READ_ECHO)
        read_message(call, parts);
    else if (call->which == CALL_BUILD_REQUEST ||
             call->which == CALL_BUILD_REPLY)
        build_message(call, output, parts);
    else if (call->which == CALL_BOARD_WORDS)
        parts[1] = HJ_BOARD_WORDS;
    else if (call->which == CALL_MISSION_WORDS)
        parts[1] = HJ_MISSION_WORDS;
    else
        abort(); /* a row of calls.def that has no code here */
}

static plain_list list_of(const struct soak_call *call)
{
    plain_list list = {records, call->records};

    return list;
}

static void receive(const struct soak_call *call, uint8_t *output,
                    uint64_t *parts)
{
    plain_view view = plainly_view(&relay, call->mission, list_of(call));
    plain_slot slot = {(uint16_t)call->numbers[1]};
    plain_verdict verdict =
        plain_receive(&view, call->numbers[0], slot, call->numbers[2],
                      call->octets, call->count, output, call->room);

    parts[0] = verdict.refusal;
    parts[TOLD_LOCAL] = verdict.local;
    parts[TOLD_ONWARD] = verdict.onward;
    parts[TOLD_TOOK] = verdict.took.bits;
    parts[TOLD_DROPPED] = verdict.dropped.bits;
    parts[TOLD_DATA_FROM] = verdict.arriving_octets;
    parts[TOLD_REWRITTEN_OCTETS] = verdict.rewritten_octets;
    parts[TOLD_REWRITTEN] = verdict.rewritten.bits;
}

/* In the form of the library's. */
static hj_verdict packed(const plain_verdict *verdict)
{
    return (hj_verdict)verdict->refusal | (hj_verdict)verdict->local << 8 |
           (hj_verdict)verdict->onward << 16 |
           (hj_verdict)verdict->took.bits << 24 |
           (hj_verdict)verdict->dropped.bits << 32 |
           (hj_verdict)verdict->arriving_octets << 40 |
           (hj_verdict)verdict->rewritten_octets << 48 |
           (hj_verdict)verdict->rewritten.bits << 56;
}

static void receive_many(const struct soak_call *call, uint8_t *output,
                         struct soak_answer *answer)
{
    static plain_verdict verdicts[SOAK_MOST_LISTED];
    static plain_slot slots[SOAK_MOST_LISTED];
    plain_view view = plainly_view(&relay, call->mission, list_of(call));
    const struct soak_batch *lent = &call->batch;
    plain_batch batch = {
        lent->lengths, lent->counts[LIST_LENGTHS], lent->ports,
        lent->counts[LIST_PORTS], slots, lent->counts[LIST_SLOTS],
        lent->seconds, lent->counts[LIST_SECONDS], call->octets, call->count};

    for (size_t i = 0; i < SOAK_MOST_LISTED; i++)
        slots[i].number = lent->slots[i];
    answer->parts[0] =
        plain_receive_many(&view, &batch, verdicts,
                           lent->counts[LIST_ANSWERS], output, call->room);
    for (size_t i = 0; answer->parts[0] == PLAIN_GOOD &&
                       i < lent->counts[LIST_ANSWERS];
         i++)
        answer->items[i] = packed(&verdicts[i]);
}

static void echo(const struct soak_call *call, uint8_t *output,
                 uint64_t *parts)
{
    plain_view view = plainly_view(&relay, call->mission, list_of(call));
    plain_slot slot = {(uint16_t)call->numbers[1]};
    plain_echoed echoed = plain_echo(&view, call->numbers[0], slot,
                                     call->octets, call->count, output,
                                     call->room);

    parts[0] = echoed.refusal;
    parts[TOLD_ONWARD] = echoed.onward;
    parts[TOLD_TOOK] = echoed.took.bits;
    parts[TOLD_DROPPED] = echoed.dropped.bits;
    parts[TOLD_REPLY_OCTETS] = echoed.reply_octets;
}

static void take(const struct soak_call *call, uint64_t *parts)
{
    plain_view view = plainly_view(&relay, call->mission, list_of(call));
    plain_entry entry = {{0}, 0};

    parts[0] = plain_take(&view, call->numbers[0], &entry);
    parts[1] = entry.slot.number;
    parts[2] = entry.precedence;
}

static void look(const struct soak_call *call, uint64_t *parts)
{
    const plain_mission *mission = &relay.missions[call->mission];
    uint32_t number = call->numbers[0];
    uint32_t waiting = 0;

    if (call->which == CALL_GET_ROUTER) {
        parts[1] = relay.board.router;
    } else if (call->which == CALL_GET_LIFETIME) {
        parts[1] = relay.board.lifetime;
    } else if (call->which == CALL_GET_ECHO_DROP) {
        parts[1] = relay.board.echo_drop;
    } else if (call->which == CALL_LAST_SECOND) {
        parts[1] = mission->last_second;
    } else if (call->which == CALL_WAITING) {
        parts[0] = plain_waiting(mission, number, &waiting);
        parts[1] = waiting;
    } else if (number < PLAIN_COUNTERS) {
        parts[1] = mission->counters.counts[number];
    } else {
        parts[0] = PLAIN_SET_NUMBER;
    }
}

static void search(const struct soak_call *call, uint64_t *parts)
{
    plain_view view = plainly_view(&relay, call->mission, list_of(call));
    plain_address address = {call->numbers[0]};
    plain_found found = plain_search(&view, address);

    parts[0] = found.refusal;
    parts[1] = found.found;
    parts[2] = found.place;
    parts[3] = found.ones;
    parts[4] = found.port;
}

/* One of the numbers; 21 where there is none such. */
static void put_word(const struct soak_call *call, const uint32_t *all,
                     uint32_t count, uint64_t *parts)
{
    if (call->numbers[1] < count)
        parts[1] = all[call->numbers[1]];
    else
        parts[0] = PLAIN_SET_NUMBER;
}

static void port_word(const struct soak_call *call, uint64_t *parts)
{
    const plain_port *port = &relay.board.ports[call->numbers[0]];
    const uint32_t all[] = {
        plain_set_has(relay.board.set_up, call->numbers[0]),
        port->address.bits, port->mask.bits, port->mtu, port->mission};

    put_word(call, all, 5, parts);
}

static void route_word(const struct soak_call *call, uint64_t *parts)
{
    const plain_record *x = &records[call->numbers[0]];
    const uint32_t all[] = {x->filled,       x->prefix.bits,
                            x->mask.bits,    x->port,
                            x->availability, x->capabilities,
                            x->mission};

    put_word(call, all, 7, parts);
}

static void place_word(const struct soak_call *call, uint64_t *parts)
{
    const plain_mission *mission = &relay.missions[call->mission];
    const plain_group *group = &mission->groups[call->numbers[0]];
    const plain_path_place *path = &mission->paths[call->numbers[0]];
    const uint32_t groups[] = {group->address.bits != 0, group->address.bits,
                               group->send.bits, group->subscribed.bits};
    const uint32_t paths[] = {path->path.bits != 0, path->path.bits,
                              path->send.bits, path->here};

    put_word(call, call->which == CALL_GROUP_WORD ? groups : paths, 4, parts);
}

static void pair_word(const struct soak_call *call, uint64_t *parts)
{
    const plain_pair *pair =
        &relay.missions[call->mission].pairs[call->numbers[0]];
    const uint32_t all[] = {pair->format, pair->source.bits,
                            pair->p_field << 24 |
                                (uint32_t)(pair->time >> 32),
                            (uint32_t)pair->time, pair->second};

    put_word(call, all, HJ_PAIR_NUMBERS, parts);
}

/* One number of a port, a record or a place. */
static void some_word(const struct soak_call *call, uint64_t *parts)
{
    uint32_t number = call->numbers[0];

    if (call->which == CALL_PORT_WORD && number < PLAIN_PORTS)
        port_word(call, parts);
    else if (call->which == CALL_ROUTE_WORD && number < call->records &&
             call->records <= PLAIN_ROUTES)
        route_word(call, parts);
    else if ((call->which == CALL_GROUP_WORD ||
              call->which == CALL_PATH_WORD) &&
             number < PLAIN_GROUPS)
        place_word(call, parts);
    else if (call->which == CALL_PAIR_WORD && number < PLAIN_PAIRS)
        pair_word(call, parts);
    else
        parts[0] = PLAIN_SET_NUMBER;
}

static void with_state(const struct soak_call *call, uint8_t *output,
                       uint64_t *parts)
{
    if (call_sets(call->which))
        parts[0] = plainly_set(&relay, call->mission, list_of(call),
                               call->which, call->numbers);
    else if (call->which == CALL_RECEIVE)
        receive(call, output, parts);
    else if (call->which == CALL_ECHO)
        echo(call, output, parts);
    else if (call->which == CALL_TAKE)
        take(call, parts);
    else if (call->which == CALL_SEARCH)
        search(call, parts);
    else if (call_facts[call->which].numbers == 2)
        some_word(call, parts);
    else
        look(call, parts);
}

void soak_plain(const struct soak_call *call, hj_record *routes,
                uint8_t *output, struct soak_answer *answer)
{
    size_t octets = (call_facts[call->which].lent & LENT_R) != 0
                        ? call->records * sizeof *records
                        : 0;

    memset(answer, 0, sizeof *answer);
    if (!call_has_state(call->which)) {
        stateless(call, output, answer->parts);
        return;
    }
    if (octets > 0)
        memcpy(records, routes, octets);
    if (call->which == CALL_RECEIVE_MANY)
        receive_many(call, output, answer);
    else
        with_state(call, output, answer->parts);
    if (octets > 0)
        memcpy(routes, records, octets);
}
