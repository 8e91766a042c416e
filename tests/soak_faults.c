/*
 * soak_faults.c: faults put between the soak and the library, to see that the
 * soak finds each of them. The linker's --wrap gives these functions the calls;
 * the variable SOAK_FAULT says which fault is in force, and 0 is none of them.
 *
 * The awkward case is a fault that shows by chance only, such as a read beyond
 * what was lent: the run is long enough for each of them to show.
 */
#include <stdlib.h>
#include <string.h>

#include "harpjuniper.h"

static int fault(void)
{
    static int number = -1;
    const char *said = getenv("SOAK_FAULT");

    if (number < 0)
        number = said == NULL ? 0 : atoi(said);
    return number;
}

#define BOARD const hj_board *board, size_t board_words
#define MISSION hj_mission *mission, size_t mission_words
#define SEEN const hj_mission *mission, size_t mission_words
#define ROUTES const hj_record *routes, size_t route_count
#define LENT_BOARD board, board_words
#define LENT_MISSION mission, mission_words
#define LENT_ROUTES routes, route_count

/* The lists of a batch, its octets, its answers and its output. */
#define BATCH                                                                 \
    const uint32_t *lengths, size_t length_count, const uint32_t *ports,      \
        size_t port_count, const uint16_t *slots, size_t slot_count,          \
        const uint32_t *seconds, size_t second_count, const uint8_t *octets,  \
        size_t octet_count, hj_verdict *answers, size_t answer_count,         \
        uint8_t *output, size_t room

/* A call under its two names, for the linker. */
#define WRAPPED(type, name, ...)                                              \
    type __real_##name(__VA_ARGS__);                                          \
    type __wrap_##name(__VA_ARGS__)

WRAPPED(uint32_t, hj_class, uint32_t address);
WRAPPED(hj_answer, hj_take, BOARD, MISSION, uint32_t port);
WRAPPED(hj_answer, hj_counter, SEEN, uint32_t counter);
WRAPPED(hj_answer, hj_waiting, SEEN, uint32_t port);
WRAPPED(hj_found, hj_search, BOARD, SEEN, ROUTES, uint32_t address);
WRAPPED(uint32_t, hj_set_port, hj_board *board, size_t board_words,
        uint32_t port, uint32_t address, uint32_t mask, uint32_t mtu,
        uint32_t mission);
WRAPPED(hj_verdict, hj_receive_at, BOARD, MISSION, ROUTES, uint32_t port,
        uint16_t slot, uint32_t second, const uint8_t *octets, size_t length,
        uint8_t *output, size_t room);
WRAPPED(uint32_t, hj_receive_many, BOARD, MISSION, ROUTES, BATCH);
WRAPPED(uint32_t, hj_sweep, BOARD, MISSION, uint32_t second);
WRAPPED(uint32_t, hj_set_lifetime, hj_board *board, size_t board_words,
        uint32_t lifetime);
WRAPPED(hj_answer, hj_get_lifetime, BOARD);
WRAPPED(hj_answer, hj_last_second, SEEN);
WRAPPED(hj_answer, hj_pair_word, SEEN, uint32_t place, uint32_t word);
WRAPPED(hj_verdict, hj_echo, BOARD, MISSION, ROUTES, uint32_t port,
        uint16_t slot, const uint8_t *octets, size_t length, uint8_t *output,
        size_t room);
WRAPPED(uint32_t, hj_read_echo_words, const uint8_t *message, size_t count,
        uint32_t *words, size_t word_count);
WRAPPED(hj_answer, hj_build_request, uint16_t identifier, uint16_t sequence,
        const uint8_t *data, size_t data_octets, uint8_t *output, size_t room);
WRAPPED(hj_answer, hj_build_reply, uint16_t identifier, uint16_t sequence,
        uint8_t hops, uint8_t format, uint64_t stamp, uint32_t mtu,
        uint32_t rate, const uint8_t *data, size_t data_octets,
        uint8_t *output, size_t room);
WRAPPED(uint32_t, hj_set_echo_drop, hj_board *board, size_t board_words,
        uint32_t drop);
WRAPPED(hj_answer, hj_get_echo_drop, BOARD);

/* Where the counters of a mission's state begin, its last second stands and its
 * pairs begin; and the lifetime and echo drop on the board. */
#define COUNTERS_AT 393
#define LAST_SECOND_AT 411
#define PAIRS_AT 412
#define LIFETIME_AT 41
#define ECHO_DROP_AT 42

uint32_t __wrap_hj_class(uint32_t address)
{
    if (fault() == 1 && address >> 24 == 10 && (address & 255) == 254)
        return HJ_UNICAST;
    return __real_hj_class(address);
}

hj_answer __wrap_hj_take(BOARD, MISSION, uint32_t port)
{
    if (fault() == 2 && mission_words != HJ_MISSION_WORDS)
        return (hj_answer)HJ_BAD_NUMBER << 32;
    if (fault() == 3 && mission_words > 0)
        ((uint32_t *)mission)[-1] = port; /* a guard */
    if (fault() == 20 && board_words == HJ_BOARD_WORDS)
        ((hj_board *)board)->words[0] ^= 1; /* the board is to be read */
    return __real_hj_take(LENT_BOARD, LENT_MISSION, port);
}

hj_answer __wrap_hj_counter(SEEN, uint32_t counter)
{
    if (fault() == 4 && mission_words < HJ_MISSION_WORDS)
        ((uint32_t *)mission)[mission_words] = counter; /* guard or fence */
    if (fault() == 5 && mission_words == HJ_MISSION_WORDS)
        ((hj_mission *)mission)->words[400]++;
    return __real_hj_counter(LENT_MISSION, counter);
}

hj_answer __wrap_hj_waiting(SEEN, uint32_t port)
{
    hj_answer answer = __real_hj_waiting(LENT_MISSION, port);

    return fault() == 6 && hj_value(answer) == HJ_QUEUE ? answer - 1 : answer;
}

/* A record for this address alone, of the availability or another, whosever it
 * is; null for none. */
static const hj_record *alone(ROUTES, uint32_t address, int is_up)
{
    for (size_t place = 0; place < route_count; place++) {
        const hj_record *record = &routes[place];

        if (record->filled && record->prefix == address &&
            record->mask == 0xffffffff &&
            (record->availability == HJ_UP) == is_up)
            return record;
    }
    return NULL;
}

/* Whether the words are those of a relay, and the list no longer than one. */
static int is_relay(size_t board_words, size_t mission_words,
                    size_t route_count)
{
    return board_words == HJ_BOARD_WORDS &&
           mission_words == HJ_MISSION_WORDS && route_count <= HJ_ROUTES;
}

hj_found __wrap_hj_search(BOARD, SEEN, ROUTES, uint32_t address)
{
    hj_found found =
        __real_hj_search(LENT_BOARD, LENT_MISSION, LENT_ROUTES, address);

    if (fault() == 17 && hj_is_found(found) && hj_found_ones(found) == 0)
        return 0; /* the default route taken for none */
    if (fault() == 18 && hj_is_found(found))
        ((hj_mission *)mission)->words[COUNTERS_AT]++;
    if (!is_relay(board_words, mission_words, route_count))
        return found;
    if (fault() == 19 && alone(LENT_ROUTES, address, 0) != NULL)
        return 0; /* a route of 32 ones that is not up hides all others */
    if (fault() == 21 && alone(LENT_ROUTES, address, 1) != NULL)
        return 1u << 8 | (hj_found)32 << 32; /* whosever it is, and refused */
    if (fault() == 22 && route_count > 0 && !hj_is_found(found))
        ((hj_record *)routes)[route_count - 1].filled ^= 1;
    return found;
}

uint32_t __wrap_hj_set_port(hj_board *board, size_t board_words, uint32_t port,
                            uint32_t address, uint32_t mask, uint32_t mtu,
                            uint32_t mission)
{
    uint32_t refusal = __real_hj_set_port(board, board_words, port, address,
                                          mask, mtu, mission);

    if (fault() == 7 && refusal == HJ_PORT_SET_UP)
        board->words[1 + 5 * port + 3] = mtu + 1;
    if (fault() == 8 && refusal == HJ_DONE)
        board->words[5 * (port == 0 ? 8 : port)] ^= 1; /* another's mission */
    return refusal;
}

/* The hop count of a header that has no basic QOS before it and a control field
 * of two octets, with addresses of four. */
#define HOP_AT 12
static int has_plain_hop_count(const uint8_t *header)
{
    return (header[3] & 0xa3) == 0x21;
}

/* What a wrong hj_receive may do to the headers. */
static void touch_headers(hj_verdict verdict, uint8_t *output)
{
    for (uint32_t port = 0; port < HJ_PORTS && hj_took(verdict) != 0; port++) {
        uint32_t octets = hj_header_octets(verdict, port);
        uint8_t *header = output + HJ_HEADER_ROOM * port;

        if (fault() == 11 && octets != 0)
            header[octets] ^= 1;
        if (fault() == 24 && octets == 0)
            header[0] ^= 1;
        if (fault() == 27 && (hj_rewritten(verdict) >> port & 1) &&
            has_plain_hop_count(header) && header[HOP_AT] == 64)
            header[HOP_AT]--; /* 63 for the first hop count */
    }
}

/* The lengths and sets of a verdict, told wrong. */
static hj_verdict mistold(hj_verdict verdict)
{
    const hj_verdict rewritten = (hj_verdict)0xffff << 48;

    if (fault() == 25 && hj_local(verdict) == HJ_DELIVERED)
        return verdict + ((hj_verdict)1 << 40);
    if (fault() == 26 && hj_rewritten(verdict) != 0)
        return verdict + ((hj_verdict)1 << 48);
    if (fault() == 28)
        return verdict & ~rewritten;
    if (fault() == 29 && hj_rewritten(verdict) == 0 && hj_took(verdict) != 0)
        return verdict | (hj_verdict)hj_took(verdict) << 56 |
               (hj_verdict)hj_data_from(verdict) << 48;
    return verdict;
}

/* What a wrong hj_receive may do to words, octets and output. */
static void touch(hj_verdict verdict, hj_mission *mission,
                  const uint8_t *octets, size_t length, uint8_t *output)
{
    volatile uint8_t beyond = 0;
    uint32_t ended = hj_ended_by(verdict);

    if (fault() == 9 && length > 0)
        beyond = octets[length];
    if (fault() == 10 && ended == HJ_BAD_ADDRESS)
        output[0] ^= 1;
    if (fault() == 12 && hj_took(verdict) != 0)
        ((uint8_t *)octets)[0] ^= 1;
    if (fault() == 13 && ended == HJ_DONE && hj_onward(verdict) == HJ_NO_ROUTE)
        mission->words[COUNTERS_AT + HJ_OUT_NO_ROUTES]--;
    if (fault() == 14 && ended == HJ_SHORT_OUTPUT)
        mission->words[COUNTERS_AT]++;
    (void)beyond;
}

/* What a wrong hj_receive may do to the last second and the pairs. */
static void touch_memory(hj_verdict verdict, MISSION, uint32_t second)
{
    uint32_t ended = hj_ended_by(verdict);
    uint32_t *first = mission->words + PAIRS_AT;

    if (mission_words != HJ_MISSION_WORDS)
        return;
    if (fault() == 30 && ended == HJ_SECOND_PAST)
        mission->words[COUNTERS_AT]++;
    if (fault() == 31 && ended == HJ_SHORT_OUTPUT)
        mission->words[LAST_SECOND_AT] = second + 1;
    if (fault() == 32 && ended == HJ_FLOOD_UNMARKED)
        mission->words[COUNTERS_AT + HJ_PAIRS_HELD_COUNT]++;
    if (fault() == 33 && ended == HJ_DONE && first[0] != 0)
        first[4] = second; /* a pair made younger */
    if (fault() == 34 && hj_onward(verdict) == HJ_HOPS_USED_UP)
        first[0] = 0; /* not kept, or freed */
    if (fault() == 35 && hj_onward(verdict) == HJ_PAIRS_HELD)
        first[3]++; /* kept in the place of another */
}

hj_verdict __wrap_hj_receive_at(BOARD, MISSION, ROUTES, uint32_t port,
                                uint16_t slot, uint32_t second,
                                const uint8_t *octets, size_t length,
                                uint8_t *output, size_t room)
{
    hj_verdict verdict =
        __real_hj_receive_at(LENT_BOARD, LENT_MISSION, LENT_ROUTES, port, slot,
                             second, octets, length, output, room);

    touch(verdict, mission, octets, length, output);
    touch_headers(verdict, output);
    touch_memory(verdict, LENT_MISSION, second);
    if (fault() == 36 && hj_ended_by(verdict) == HJ_SECOND_PAST)
        return HJ_NO_PORT; /* 16 for 29 */
    if (fault() == 37 && hj_onward(verdict) == HJ_PAIRS_HELD)
        return verdict - ((hj_verdict)HJ_PAIRS_HELD << 16); /* not asked */
    if (fault() == 15 && hj_onward(verdict) == HJ_NO_ROUTE)
        return verdict + (1u << 16); /* 12, which is no longer given */
    if (fault() == 16 && hj_dropped(verdict) != 0)
        return verdict & ~((hj_verdict)0xff << 32);
    if (fault() == 23 && hj_ended_by(verdict) == HJ_BAD_NUMBER)
        return HJ_NO_PORT; /* a list over 512 records: 16 for 21 */
    return mistold(verdict);
}

/* ---- Batches ------------------------------------------------------------- */

/* The lengths, summed in 32 bits. */
static uint32_t wrapped_sum(const uint32_t *lengths, size_t count)
{
    uint32_t sum = 0;

    for (size_t i = 0; i < count; i++)
        sum += lengths[i];
    return sum;
}

/* What a wrong hj_receive_many may take for good. */
static int passes(uint32_t refusal, const uint32_t *lengths,
                  size_t length_count, size_t octet_count, size_t room)
{
    if (refusal != HJ_BAD_BATCH)
        return 0;
    return (fault() == 68 && length_count == HJ_MOST_ITEMS + 1) ||
           (fault() == 69 && length_count > 1 &&
            lengths[0] > octet_count &&
            wrapped_sum(lengths, length_count) <= octet_count) ||
           (fault() == 70 && room + 1 == HJ_OUTPUT_ROOM * length_count);
}

/* What it may do where it refuses. */
static void touch_refused(MISSION, hj_verdict *answers, size_t answer_count,
                          uint8_t *output, size_t room)
{
    int is_mission = mission_words == HJ_MISSION_WORDS;

    if (fault() == 71 && is_mission)
        mission->words[COUNTERS_AT]++;
    if (fault() == 72 && is_mission)
        mission->words[LAST_SECOND_AT]++; /* a second accepted */
    if (fault() == 73 && answer_count > 0)
        answers[0] ^= 1;
    if (fault() == 74 && room > 0)
        output[0] ^= 1;
}

/* What it may do to answers and output. */
static void touch_items(size_t items, hj_verdict *answers, uint8_t *output,
                        size_t room)
{
    if (items > 1 && fault() == 75) {
        hj_verdict first = answers[0];

        answers[0] = answers[1]; /* each the other's */
        answers[1] = first;
    }
    if (items > 1 && fault() == 76)
        output[HJ_OUTPUT_ROOM] ^= 1; /* in that of the next item */
    if (fault() == 77 && room > HJ_OUTPUT_ROOM * items)
        output[HJ_OUTPUT_ROOM * items] ^= 1; /* behind the last */
    if (fault() == 78 && items > 0)
        answers[items] ^= 1; /* likewise */
}

/* What it may do to lists that it is lent to read. */
static void touch_lists(const uint32_t *lengths, size_t items,
                        const uint16_t *slots, const uint8_t *octets,
                        hj_verdict *answers)
{
    volatile uint32_t beyond = 0;

    if (fault() == 79 && items > 0)
        beyond = lengths[items];
    if (fault() == 80 && items > 0)
        ((uint16_t *)slots)[items - 1] ^= 1;
    if (fault() == 81 && items > 0 && lengths[0] > 0)
        ((uint8_t *)octets)[0] ^= 1;
    for (size_t i = 0; i < items && fault() == 82; i++) {
        if (lengths[i] == 0 && hj_ended_by(answers[i]) == HJ_SHORT)
            answers[i] = HJ_DONE; /* one without octets passed over */
    }
    (void)beyond;
}

/* Each item with the slot, or the second, of the first. */
static void mistake_lists(const uint16_t **slots, size_t slot_count,
                          const uint32_t **seconds, size_t second_count)
{
    static uint16_t own_slots[HJ_MOST_ITEMS];
    static uint32_t own_seconds[HJ_MOST_ITEMS];

    if (slot_count == 0 || slot_count > HJ_MOST_ITEMS ||
        second_count != slot_count)
        return;
    for (size_t i = 0; i < slot_count; i++) {
        own_slots[i] = (*slots)[0];
        own_seconds[i] = (*seconds)[0];
    }
    if (fault() == 83)
        *slots = own_slots;
    if (fault() == 84)
        *seconds = own_seconds;
}

/* How many are heard where the first refused one ends the batch. */
static size_t heard_up_to_refused(BOARD, const hj_mission *mission, ROUTES,
                                  BATCH)
{
    static hj_verdict told[HJ_MOST_ITEMS];
    static uint8_t sent[HJ_MOST_ITEMS * HJ_OUTPUT_ROOM];
    hj_mission alone = *mission;
    size_t items = 0;

    (void)answers, (void)output;
    if (__real_hj_receive_many(LENT_BOARD, &alone, HJ_MISSION_WORDS,
                               LENT_ROUTES, lengths, length_count, ports,
                               port_count, slots, slot_count, seconds,
                               second_count, octets, octet_count, told,
                               answer_count, sent,
                               room < sizeof sent ? room : sizeof sent) !=
        HJ_DONE)
        return length_count;
    while (items < length_count && hj_ended_by(told[items]) == HJ_DONE)
        items++;
    return items < length_count ? items + 1 : items;
}

uint32_t __wrap_hj_receive_many(BOARD, MISSION, ROUTES, BATCH)
{
    size_t items = length_count;
    uint32_t refusal;

    mistake_lists(&slots, slot_count, &seconds, second_count);
    if (fault() == 85 && mission_words == HJ_MISSION_WORDS)
        items = heard_up_to_refused(
            LENT_BOARD, mission, LENT_ROUTES, lengths, length_count, ports,
            port_count, slots, slot_count, seconds, second_count, octets,
            octet_count, answers, answer_count, output, room);
    if (items < length_count) {
        memset(answers, 0, answer_count * sizeof *answers);
        port_count = slot_count = second_count = answer_count = items;
    }
    refusal = __real_hj_receive_many(
        LENT_BOARD, LENT_MISSION, LENT_ROUTES, lengths, items, ports,
        port_count, slots, slot_count, seconds, second_count, octets,
        octet_count, answers, answer_count, output, room);
    if (passes(refusal, lengths, length_count, octet_count, room))
        return HJ_DONE;
    if (refusal == HJ_DONE) {
        touch_items(items, answers, output, room);
        touch_lists(lengths, items, slots, octets, answers);
    } else {
        touch_refused(LENT_MISSION, answers, answer_count, output, room);
    }
    if (fault() == 86 && refusal == HJ_BAD_NUMBER)
        return HJ_BAD_BATCH; /* 27 for 21 */
    if (fault() == 87 && mission_words != HJ_MISSION_WORDS)
        return HJ_NO_PORT; /* for the whole call */
    if (fault() == 88 && length_count == 0 && refusal == HJ_DONE)
        return HJ_BAD_BATCH;
    return refusal;
}

/* ---- Sweeps and what stands ---------------------------------------------- */

/* Of a pair as old as the lifetime, freed too early; and others. */
uint32_t __wrap_hj_sweep(BOARD, MISSION, uint32_t second)
{
    hj_board early;
    uint32_t refusal;

    if (fault() == 38 && board_words == HJ_BOARD_WORDS &&
        board->words[LIFETIME_AT] > 0) {
        early = *board;
        early.words[LIFETIME_AT]--;
        return __real_hj_sweep(&early, board_words, LENT_MISSION, second);
    }
    refusal = __real_hj_sweep(LENT_BOARD, LENT_MISSION, second);
    if (fault() == 39 && refusal == HJ_SECOND_PAST)
        mission->words[LAST_SECOND_AT] = second;
    if (fault() == 40 && refusal == HJ_BAD_NUMBER)
        return HJ_NO_PORT;
    if (fault() == 41 && refusal == HJ_DONE)
        mission->words[COUNTERS_AT]++;
    return refusal;
}

uint32_t __wrap_hj_set_lifetime(hj_board *board, size_t board_words,
                                uint32_t lifetime)
{
    if (fault() == 42 && lifetime == 0xffffffff)
        lifetime--;
    return __real_hj_set_lifetime(board, board_words, lifetime);
}

hj_answer __wrap_hj_get_lifetime(BOARD)
{
    hj_answer answer = __real_hj_get_lifetime(LENT_BOARD);

    return fault() == 43 ? answer & ~(hj_answer)1 : answer;
}

hj_answer __wrap_hj_last_second(SEEN)
{
    hj_answer answer = __real_hj_last_second(LENT_MISSION);

    return fault() == 44 && hj_value(answer) > 0 ? answer - 1 : answer;
}

hj_answer __wrap_hj_pair_word(SEEN, uint32_t place, uint32_t word)
{
    if (fault() == 45 && (word == 2 || word == 3))
        word = 5 - word; /* the halves of the time exchanged */
    if (fault() == 46 && place == HJ_PAIRS)
        place--;
    return __real_hj_pair_word(LENT_MISSION, place, word);
}

/* ---- Echo requests and messages ------------------------------------------ */

/* What a wrong hj_echo may count. */
static void touch_counters(hj_verdict verdict, hj_mission *mission)
{
    uint32_t *counters = mission->words + COUNTERS_AT;
    uint32_t onward = hj_onward(verdict);

    if (fault() == 47 && onward == HJ_SENT_ON)
        counters[HJ_FORW_DATAGRAMS]++;
    if (fault() == 48 && (onward == HJ_NO_ROUTE || onward == HJ_TOO_BIG))
        counters[HJ_OUT_REQUESTS]--; /* replies that no port took */
    if (fault() == 49 && hj_ended_by(verdict) == HJ_DONE &&
        onward == HJ_NO_REPLY)
        counters[HJ_IN_RECEIVES]++; /* counted for the request */
    if (fault() == 50 && hj_ended_by(verdict) == HJ_SHORT_OUTPUT)
        counters[HJ_OUT_REQUESTS]++;
    if (fault() == 51 && onward == HJ_SENT_ON)
        mission->words[LAST_SECOND_AT]++; /* a second accepted */
}

/* What it may do to a reply. Its message follows a header of four-octet
 * addresses, without basic QOS and checksum. */
static void touch_reply(hj_verdict verdict, const uint8_t *octets,
                        uint8_t *output)
{
    uint32_t count = hj_reply_octets(verdict);

    if (fault() == 52 && count > 0)
        output[count] ^= 1; /* an octet behind it */
    if (fault() == 53 && hj_onward(verdict) == HJ_QUEUES_FULL)
        output[0] ^= 1; /* one that was dropped */
    if (fault() == 54 && count > 0)
        ((uint8_t *)octets)[0] ^= 1;
    if (count > HOP_AT && (output[2] & 1) == 0 && output[3] == 0x61) {
        if (fault() == 55)
            output[HOP_AT]--; /* hop count 63 */
        if (fault() == 56)
            output[HOP_AT + 1 + 8]--; /* the request's, one less */
    }
}

/* Answered though echo drop is on. */
static hj_verdict without_drop(BOARD, MISSION, ROUTES, uint32_t port,
                               uint16_t slot, const uint8_t *octets,
                               size_t length, uint8_t *output, size_t room)
{
    hj_board open = *board;

    open.words[ECHO_DROP_AT] = 0;
    return __real_hj_echo(&open, board_words, LENT_MISSION, LENT_ROUTES, port,
                          slot, octets, length, output, room);
}

hj_verdict __wrap_hj_echo(BOARD, MISSION, ROUTES, uint32_t port, uint16_t slot,
                          const uint8_t *octets, size_t length,
                          uint8_t *output, size_t room)
{
    hj_verdict verdict;

    if (fault() == 57 && board_words == HJ_BOARD_WORDS)
        return without_drop(LENT_BOARD, LENT_MISSION, LENT_ROUTES, port, slot,
                            octets, length, output, room);
    if (fault() == 58)
        slot = 0; /* another entry waits */
    verdict = __real_hj_echo(LENT_BOARD, LENT_MISSION, LENT_ROUTES, port, slot,
                             octets, length, output, room);
    if (mission_words == HJ_MISSION_WORDS)
        touch_counters(verdict, mission);
    touch_reply(verdict, octets, output);
    if (fault() == 59 && hj_ended_by(verdict) == HJ_BAD_NUMBER)
        return HJ_NO_PORT;
    if (fault() == 60 && hj_onward(verdict) == HJ_SENT_ON)
        return verdict - ((hj_verdict)1 << 40); /* one octet less */
    if (fault() == 61 && hj_onward(verdict) == HJ_TOO_BIG)
        return verdict - ((hj_verdict)3 << 16); /* 11 for 14 */
    return verdict;
}

uint32_t __wrap_hj_read_echo_words(const uint8_t *message, size_t count,
                                   uint32_t *words, size_t word_count)
{
    uint32_t refusal =
        __real_hj_read_echo_words(message, count, words, word_count);

    if (fault() == 62 && refusal == HJ_BAD_CHECKSUM)
        return HJ_DONE;
    if (fault() == 63 && refusal == HJ_DONE)
        words[5] &= 3; /* not the whole octet */
    return refusal;
}

hj_answer __wrap_hj_build_request(uint16_t identifier, uint16_t sequence,
                                  const uint8_t *data, size_t data_octets,
                                  uint8_t *output, size_t room)
{
    hj_answer built = __real_hj_build_request(identifier, sequence, data,
                                              data_octets, output, room);

    if (fault() == 64 && hj_value(built) > 0 && hj_value(built) < room)
        output[hj_value(built)] ^= 1;
    return built;
}

hj_answer __wrap_hj_build_reply(uint16_t identifier, uint16_t sequence,
                                uint8_t hops, uint8_t format, uint64_t stamp,
                                uint32_t mtu, uint32_t rate,
                                const uint8_t *data, size_t data_octets,
                                uint8_t *output, size_t room)
{
    hj_answer built =
        __real_hj_build_reply(identifier, sequence, hops, format, stamp, mtu,
                              rate, data, data_octets, output, room);

    if (fault() == 65 && hj_refusal(built) == HJ_DATA_TOO_LONG)
        return (hj_answer)HJ_SHORT_OUTPUT << 32;
    return built;
}

uint32_t __wrap_hj_set_echo_drop(hj_board *board, size_t board_words,
                                 uint32_t drop)
{
    return __real_hj_set_echo_drop(board, board_words,
                                   fault() == 66 ? drop & 1 : drop);
}

hj_answer __wrap_hj_get_echo_drop(BOARD)
{
    hj_answer answer = __real_hj_get_echo_drop(LENT_BOARD);

    return fault() == 67 && hj_refusal(answer) == HJ_DONE ? answer ^ 1
                                                          : answer;
}
