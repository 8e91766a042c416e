/*
 * rules.c: what holds of a call and its answer on whatever words and records,
 * garbage included. What is due is made from what stood before the call and
 * from what the answer says: a refused setting changes nothing, a taken one its
 * own record, a verdict the last second, the counters it names and the queues
 * of the ports that took. Every other word is then due as it was. An item of a
 * batch is judged like a call of its own, on what those before it left.
 *
 * The reader's part comes from host/plain: a header that is refused there is
 * refused here by the same number. What the list gives is list.c's, what is due
 * of the headers sent on is that of headers.c, of floods that of floods.c, and
 * of echo requests that of echoes.c.
 *
 * The awkward case is a queue in a state that no history leaves. Entries behind
 * those that wait, and counts over 32, are words like any other: a newcomer
 * moves only those that wait, and a count over 32 is full and hands nothing
 * out.
 */
#include "rules.h"

#include <stdbool.h>
#include <string.h>

#include "echoes.h"
#include "floods.h"
#include "headers.h"
#include "list.h"
#include "ours.h"
#include "plain/plain_header.h"
#include "singles.h"

/* ---- Refusals ------------------------------------------------------------ */

/* The refusal, and all other parts 0. */
static bool is_only(const struct soak_answer *answer, uint64_t refusal)
{
    struct soak_answer due = {{0}, {0}};

    due.parts[0] = refusal;
    return memcmp(&due, answer, sizeof due) == 0;
}

static const char *only(const struct soak_answer *answer, uint64_t refusal)
{
    return is_only(answer, refusal) ? NULL : "not the refusal that is due";
}

static const char *wrong_length(const struct soak_call *call,
                                const struct soak_answer *answer)
{
    bool by_port = call_facts[call->which].kind == KIND_DATAGRAM;

    return only(answer, by_port && !soak_list_too_long(call) ? HJ_NO_PORT
                                                             : HJ_BAD_NUMBER);
}

/* ---- Records ------------------------------------------------------------- */

/* Where the records of an object stand, how many there are and how long. */
struct records {
    uint32_t at, count, words;
};

static const struct records RECORDS[CALL_OBJECTS] = {
    [ON_BOARD] = {0, 1, 1},
    [ON_PORT] = {SOAK_PORTS_AT, HJ_PORTS, SOAK_PORT_WORDS},
    [ON_ROUTE] = {0, 0, 7},
    [ON_GROUP] = {SOAK_GROUPS_AT, HJ_GROUPS, 4},
    [ON_PATH] = {SOAK_PATHS_AT, HJ_PATHS, 4},
    [ON_COUNTER] = {SOAK_COUNTERS_AT, HJ_COUNTERS, 1},
    [ON_PAIR] = {SOAK_PAIRS_AT, HJ_PAIRS, HJ_PAIR_NUMBERS},
    [ON_QUEUE] = {SOAK_QUEUES_AT, HJ_PORTS, SOAK_QUEUE_WORDS}};

/* How many there are of the call's object. */
static uint32_t places(const struct soak_call *call)
{
    enum call_object object = call_facts[call->which].object;

    return object == ON_ROUTE ? (uint32_t)call->records
                              : RECORDS[object].count;
}

/* The words of the one that the number says, of the board, the mission's state
 * or the list. */
static uint32_t *record(const struct library_lent *due,
                        enum call_object object, uint32_t number)
{
    uint32_t *words = object == ON_ROUTE  ? (uint32_t *)due->routes
                      : object == ON_PORT || object == ON_BOARD
                          ? due->board->words
                          : due->mission->words;

    return words + RECORDS[object].at +
           (size_t)number * RECORDS[object].words;
}

static bool is_setting_refusal(uint64_t refusal)
{
    return (refusal >= HJ_BAD_NUMBER && refusal <= HJ_WRONG_CLASS) ||
           refusal == HJ_PORT_SET_UP;
}

/* One of the set_ or clear_ calls on a port or a place. */
static const char *placed(const struct soak_call *call,
                          const struct soak_answer *answer,
                          const struct library_lent *due)
{
    enum call_object object = call_facts[call->which].object;
    uint32_t words = RECORDS[object].words;
    uint32_t *at;

    if (soak_list_too_long(call) || call->numbers[0] >= places(call))
        return only(answer, HJ_BAD_NUMBER);
    if (call->which == CALL_SET_ROUTE &&
        answer->parts[0] != list_setting(due, call->numbers))
        return "not the refusal that the list gives";
    if (answer->parts[0] != HJ_DONE)
        return is_setting_refusal(answer->parts[0]) ? NULL : "odd refusal";
    at = record(due, object, call->numbers[0]);
    if (call_facts[call->which].kind == KIND_CLEARING) {
        memset(at, 0, words * sizeof *at);
        return NULL;
    }
    at[0] = 1;
    memcpy(at + 1, call->numbers + 1, (words - 1) * sizeof *at);
    return NULL;
}

static const char *fresh(const struct soak_call *call,
                         const struct soak_answer *answer,
                         const struct library_lent *due)
{
    if (call->which == CALL_FRESH_BOARD) {
        memset(due->board, 0, sizeof *due->board);
        return only(answer, HJ_DONE);
    }
    if (call->numbers[0] >= HJ_MISSIONS)
        return only(answer, HJ_BAD_CODE);
    memset(due->mission, 0, sizeof *due->mission);
    due->mission->words[0] = call->numbers[0];
    return only(answer, HJ_DONE);
}

/* Whether the second of a datagram or a sweep is under the last one. */
static bool is_past(const struct library_lent *due, uint32_t second)
{
    return second < due->mission->words[SOAK_LAST_SECOND_AT];
}

static const char *swept(const struct soak_call *call,
                         const struct soak_answer *answer,
                         const struct library_lent *due)
{
    if (is_past(due, call->numbers[0]))
        return only(answer, HJ_SECOND_PAST);
    soak_sweep(due, call->numbers[0]);
    return only(answer, HJ_DONE);
}

static const char *set_board(const struct soak_call *call,
                             const struct soak_answer *answer,
                             const struct library_lent *due)
{
    uint32_t at = call->which == CALL_SET_ROUTER     ? 0
                  : call->which == CALL_SET_LIFETIME ? SOAK_LIFETIME_AT
                                                     : SOAK_ECHO_DROP_AT;

    if (at != SOAK_LIFETIME_AT && call->numbers[0] > 1)
        return only(answer, HJ_BAD_CODE);
    due->board->words[at] = call->numbers[0];
    return only(answer, HJ_DONE);
}

static const char *set(const struct soak_call *call,
                       const struct soak_answer *answer,
                       const struct library_lent *due)
{
    if (call_facts[call->which].kind == KIND_FRESH)
        return fresh(call, answer, due);
    if (call->which == CALL_SWEEP)
        return swept(call, answer, due);
    return call_facts[call->which].object == ON_BOARD
               ? set_board(call, answer, due)
               : placed(call, answer, due);
}

/* The calls that only read: the number is a word, as it stands. */
static const char *looked(const struct soak_call *call,
                          const struct soak_answer *answer,
                          const struct library_lent *due)
{
    enum call_object object = call_facts[call->which].object;
    bool of_word = call_facts[call->which].numbers == 2;
    uint32_t word = of_word ? call->numbers[1] : 0;
    struct soak_answer told = {{0}, {0}};

    if (object == ON_QUEUE)
        word = HJ_QUEUE;
    if (call->which == CALL_GET_ROUTER)
        told.parts[1] = due->board->words[0];
    else if (call->which == CALL_GET_LIFETIME)
        told.parts[1] = due->board->words[SOAK_LIFETIME_AT];
    else if (call->which == CALL_GET_ECHO_DROP)
        told.parts[1] = due->board->words[SOAK_ECHO_DROP_AT];
    else if (call->which == CALL_LAST_SECOND)
        told.parts[1] = due->mission->words[SOAK_LAST_SECOND_AT];
    else if (soak_list_too_long(call) || call->numbers[0] >= places(call) ||
             word >= RECORDS[object].words)
        told.parts[0] = HJ_BAD_NUMBER;
    else
        told.parts[1] = record(due, object, call->numbers[0])[word];
    return memcmp(&told, answer, sizeof told) == 0 ? NULL
                                                   : "not what the words say";
}

static const char *searched(const struct soak_call *call,
                            const struct soak_answer *answer,
                            const struct library_lent *due)
{
    const hj_record *route;
    struct soak_answer told = {{0}, {0}};

    if (soak_list_too_long(call))
        return only(answer, HJ_BAD_NUMBER);
    route = list_longest(due, call->numbers[0], false);
    if (route != NULL) {
        told.parts[1] = 1;
        told.parts[2] = (uint64_t)(route - due->routes);
        told.parts[3] = (uint64_t)__builtin_popcount(route->mask);
        told.parts[4] = route->port;
    }
    return memcmp(&told, answer, sizeof told) == 0 ? NULL
                                                   : "not what the list says";
}

/* ---- Queues -------------------------------------------------------------- */

/* Whether the mission has the port. */
static bool is_set_up(const struct library_lent *due, uint32_t port)
{
    return list_has_port(due->board, due->mission->words[0], port);
}

static uint32_t *queue(const struct library_lent *due, uint32_t port)
{
    return record(due, ON_QUEUE, port);
}

static const char *put(uint32_t *entries, uint32_t slot, uint32_t precedence)
{
    uint32_t count = entries[HJ_QUEUE];
    uint32_t at = 0;

    if (count >= HJ_QUEUE)
        return "a full port took an entry";
    while (at < count && entries[at] >> 16 >= precedence)
        at++;
    memmove(entries + at + 1, entries + at, (count - at) * sizeof *entries);
    entries[at] = slot | precedence << 16;
    entries[HJ_QUEUE]++;
    return NULL;
}

static const char *taken(const struct soak_call *call,
                         const struct soak_answer *answer,
                         const struct library_lent *due)
{
    struct soak_answer told = {{0}, {0}};
    uint32_t *entries;

    if (!is_set_up(due, call->numbers[0]))
        return only(answer, HJ_NO_PORT);
    entries = queue(due, call->numbers[0]);
    if (entries[HJ_QUEUE] == 0 || entries[HJ_QUEUE] > HJ_QUEUE)
        return only(answer, HJ_NOTHING_WAITING);
    told.parts[1] = entries[0] & 0xffff;
    told.parts[2] = entries[0] >> 16;
    memmove(entries, entries + 1, (HJ_QUEUE - 1) * sizeof *entries);
    entries[HJ_QUEUE - 1] = 0;
    entries[HJ_QUEUE]--;
    return memcmp(&told, answer, sizeof told) == 0 ? NULL
                                                   : "not the first entry";
}

/* ---- Verdicts ------------------------------------------------------------ */

/* The counter of a refusal or of a half; none for 0, for 15, and for 12, which
 * is not given. That of all receipts is no number's, so 0 is none. */
static void count_one(const struct library_lent *due, uint64_t number)
{
    static const uint8_t COUNTER[CALL_NUMBERS] = {
        [HJ_SHORT] = HJ_IN_BAD_LENGTH,
        [HJ_BAD_VERSION] = HJ_IN_BAD_VERSION,
        [HJ_BAD_LENGTH] = HJ_IN_BAD_LENGTH,
        [HJ_BAD_FORM] = HJ_IN_BAD_ADDRESS,
        [HJ_BAD_CHECKSUM] = HJ_IN_BAD_CHECKSUM,
        [HJ_BAD_ADDRESS] = HJ_IN_BAD_ADDRESS,
        [HJ_NO_DOMAIN] = HJ_IN_BAD_ADDRESS,
        [HJ_NOT_CARRIED] = HJ_UNSUPPORTED,
        [HJ_NOT_FOR_US] = HJ_IN_ADDR_ERRORS,
        [HJ_HOPS_USED_UP] = HJ_FORW_HOP_DISCARD,
        [HJ_NO_ROUTE] = HJ_OUT_NO_ROUTES,
        [HJ_LEAVES_DOMAIN] = HJ_LEFT_DOMAIN,
        [HJ_TOO_BIG] = HJ_TOO_BIG_COUNT,
        [HJ_FLOOD_UNMARKED] = HJ_FLOOD_UNMARKED_COUNT,
        [HJ_PAIRS_HELD] = HJ_PAIRS_HELD_COUNT};

    if (COUNTER[number] != 0)
        ++*record(due, ON_COUNTER, COUNTER[number]);
}

/* Whether the parts of the onward half go together. */
static const char *onward_fits(const struct soak_answer *answer)
{
    uint64_t onward = answer->parts[TOLD_ONWARD];
    uint64_t took = answer->parts[TOLD_TOOK];
    uint64_t dropped = answer->parts[TOLD_DROPPED];

    if ((onward > HJ_QUEUES_FULL && onward != HJ_PAIRS_HELD) ||
        onward == HJ_NOT_UP ||
        (onward > HJ_SENT_ON && onward < HJ_NOT_FOR_US))
        return "odd onward half";
    if ((took != 0) != (onward == HJ_SENT_ON) || (took & dropped) != 0)
        return "ports that took, and did not";
    if (dropped != 0 ? onward != HJ_SENT_ON && onward != HJ_QUEUES_FULL
                     : onward == HJ_QUEUES_FULL)
        return "copies dropped, and not";
    return NULL;
}

static const char *copies(const struct soak_call *call,
                          const struct soak_answer *answer,
                          uint32_t precedence, const struct library_lent *due)
{
    const char *wrong = NULL;

    for (uint32_t port = 0; port < HJ_PORTS && wrong == NULL; port++) {
        bool took = (answer->parts[TOLD_TOOK] >> port & 1) != 0;
        bool dropped = (answer->parts[TOLD_DROPPED] >> port & 1) != 0;

        if ((took || dropped) && !is_set_up(due, port))
            wrong = "a copy for a port that is not set up";
        else if (took)
            wrong = put(queue(due, port), call->numbers[1] & 0xffff,
                        precedence);
        else if (dropped && queue(due, port)[HJ_QUEUE] < HJ_QUEUE)
            wrong = "a copy dropped with room for it";
    }
    return wrong;
}

/* Without a flood, no and not asked never come together, and 30 never. */
static const char *flood_fits(const struct soak_judged *sent)
{
    uint64_t onward = sent->answer->parts[TOLD_ONWARD];

    if (soak_is_flooded(sent->came))
        return soak_flood(sent);
    if (onward == HJ_PAIRS_HELD)
        return "30 without a flood";
    return onward == HJ_NOT_ASKED &&
                   sent->answer->parts[TOLD_LOCAL] == HJ_LOCAL_NO
               ? "odd local half"
               : NULL;
}

/* What the halves count. */
static const char *count_halves(const struct soak_answer *answer,
                                const struct library_lent *due)
{
    uint64_t local = answer->parts[TOLD_LOCAL];
    uint64_t onward = answer->parts[TOLD_ONWARD];

    if (local == HJ_DELIVERED)
        ++*record(due, ON_COUNTER, HJ_IN_DELIVERS);
    else if (local == HJ_UNKNOWN_TP_ID)
        ++*record(due, ON_COUNTER, HJ_IN_UNKNOWN_PROTOS);
    else if (local != HJ_LOCAL_NO)
        return "odd local half";
    if (onward == HJ_SENT_ON)
        ++*record(due, ON_COUNTER, HJ_FORW_DATAGRAMS);
    else
        count_one(due, onward);
    *record(due, ON_COUNTER, HJ_OUT_DISCARDS) +=
        (uint32_t)__builtin_popcountll(answer->parts[TOLD_DROPPED]);
    return NULL;
}

static const char *halves(const struct soak_judged *sent, uint8_t *output)
{
    const char *wrong = onward_fits(sent->answer);

    if (wrong == NULL)
        wrong = flood_fits(sent);
    if (wrong == NULL)
        wrong = count_halves(sent->answer, sent->due);
    if (wrong == NULL)
        wrong = soak_headers(sent, output);
    return wrong != NULL ? wrong
                         : copies(sent->call, sent->answer,
                                  sent->came->fields.precedence, sent->due);
}

/* A datagram whose header is good and which is carried. */
static const char *carried(const struct soak_judged *sent, uint8_t *output)
{
    uint64_t ended = sent->answer->parts[0];
    bool unmarked =
        soak_is_flooded(sent->came) && soak_is_unmarked(sent->came);

    if (ended == HJ_DONE)
        return unmarked ? "28 is due" : halves(sent, output);
    if (ended != HJ_BAD_ADDRESS && ended != HJ_NO_DOMAIN &&
        !(ended == HJ_FLOOD_UNMARKED && unmarked))
        return "odd refusal of a datagram";
    count_one(sent->due, ended);
    return only(sent->answer, ended);
}

static const char *received(const struct soak_call *call,
                            const struct soak_answer *answer,
                            const struct library_lent *due, uint8_t *output)
{
    const plain_fields *fields;
    plain_header header;
    plain_refusal reading;
    struct soak_judged sent = {call, answer, &header, due};

    if (soak_list_too_long(call))
        return only(answer, HJ_BAD_NUMBER);
    if (!is_set_up(due, call->numbers[0]))
        return only(answer, HJ_NO_PORT);
    if (call->room < HJ_OUTPUT_ROOM)
        return only(answer, HJ_SHORT_OUTPUT);
    if (is_past(due, call->numbers[2]))
        return only(answer, HJ_SECOND_PAST);
    due->mission->words[SOAK_LAST_SECOND_AT] = call->numbers[2];
    ++*record(due, ON_COUNTER, HJ_IN_RECEIVES);
    reading = plain_header_read(call->octets, call->count, &header);
    if (reading != PLAIN_GOOD) {
        count_one(due, reading);
        return only(answer, reading);
    }
    fields = &header.fields;
    if ((fields->routing != 0 && !soak_is_flooded(&header)) || fields->ipv6) {
        count_one(due, HJ_NOT_CARRIED);
        return only(answer, HJ_NOT_CARRIED);
    }
    return carried(&sent, output);
}

/* Without the right words each item is 16. */
static const char *heard(const struct soak_call *call,
                         const struct soak_answer *answer, size_t which,
                         const struct soak_pieces *due)
{
    static struct soak_call item;
    struct soak_answer told = {{0}, {0}};

    soak_tell(answer->items[which], &told);
    if (!soak_words_right(call))
        return only(&told, HJ_NO_PORT);
    soak_batch_item(call, which, &item);
    return received(&item, &told, &due->lent,
                    due->output + HJ_OUTPUT_ROOM * which);
}

static const char *received_many(const struct soak_call *call,
                                 const struct soak_answer *answer,
                                 const struct soak_pieces *due)
{
    uint32_t refusal = soak_batch_refusal(call);
    size_t items = soak_batch_items(call);
    const char *wrong = NULL;

    if (refusal != HJ_DONE)
        return only(answer, refusal);
    if (answer->parts[0] != HJ_DONE)
        return "a batch refused that fits";
    for (size_t i = 0; i < items && wrong == NULL; i++)
        wrong = heard(call, answer, i, due);
    if (items > 0)
        memcpy(due->lists[LIST_ANSWERS], answer->items,
               items * sizeof *answer->items);
    return wrong;
}

/* ---- Replies ------------------------------------------------------------- */

/* What a reply that is made counts and writes. */
static const char *replied(const struct soak_call *call,
                           const struct soak_reply *reply,
                           const struct library_lent *due, uint8_t *output)
{
    ++*record(due, ON_COUNTER, HJ_OUT_REQUESTS);
    if (reply->onward == HJ_QUEUES_FULL)
        ++*record(due, ON_COUNTER, HJ_OUT_DISCARDS);
    if (reply->onward != HJ_SENT_ON) {
        count_one(due, reply->onward);
        return NULL;
    }
    memcpy(output, reply->octets, reply->count);
    return put(queue(due, reply->port), call->numbers[1] & 0xffff,
               reply->precedence);
}

static const char *echoed(const struct soak_call *call,
                          const struct soak_answer *answer,
                          const struct library_lent *due, uint8_t *output)
{
    static struct soak_reply reply;
    struct soak_answer told = {{0}, {0}};

    if (soak_list_too_long(call))
        return only(answer, HJ_BAD_NUMBER);
    if (!is_set_up(due, call->numbers[0]))
        return only(answer, HJ_NO_PORT);
    if (call->room < record(due, ON_PORT, call->numbers[0])[3])
        return only(answer, HJ_SHORT_OUTPUT);
    soak_reply_due(call, due, &reply);
    told.parts[TOLD_ONWARD] = reply.onward;
    if (reply.onward == HJ_SENT_ON) {
        told.parts[TOLD_TOOK] = (uint64_t)1 << reply.port;
        told.parts[TOLD_REPLY_OCTETS] = reply.count;
    }
    if (reply.onward == HJ_QUEUES_FULL)
        told.parts[TOLD_DROPPED] = (uint64_t)1 << reply.port;
    if (memcmp(&told, answer, sizeof told) != 0)
        return "not the answer that is due to an echo request";
    return reply.onward == HJ_NO_REPLY ? NULL
                                       : replied(call, &reply, due, output);
}

const char *soak_rules(const struct soak_call *call,
                       const struct soak_answer *answer,
                       const struct soak_pieces *due)
{
    if (!call_has_state(call->which))
        return NULL;
    if (call->which == CALL_RECEIVE_MANY)
        return received_many(call, answer, due);
    if (!soak_words_right(call))
        return wrong_length(call, answer);
    if (call_sets(call->which))
        return set(call, answer, &due->lent);
    if (call->which == CALL_RECEIVE)
        return received(call, answer, &due->lent, due->output);
    if (call->which == CALL_ECHO)
        return echoed(call, answer, &due->lent, due->output);
    if (call->which == CALL_TAKE)
        return taken(call, answer, &due->lent);
    if (call->which == CALL_SEARCH)
        return searched(call, answer, &due->lent);
    return looked(call, answer, &due->lent);
}
