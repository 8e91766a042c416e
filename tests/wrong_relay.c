/*
 * wrong_relay.c: wrong relays, to show that the rehearsal and the flood find
 * them out, and that silent-leg says what they answer. They stand in for
 * hj_take, hj_receive_at, hj_sweep, hj_counter, hj_echo and hj_set_echo_drop
 * (by the linker's --wrap) in build/rehearsal_wrong, build/flood_wrong and
 * build/silent-leg_wrong; the variable WRONG_RELAY says which one. Where it is
 * not set, or is another word, the relay is the right one.
 *
 *   lose      loses the first entry where two or more wait: its ledger does
 *             not close
 *   swap      hands out the second and then the first where two or more wait:
 *             its ledger closes, but no take of theirs is the one foretold
 *   repeat    hands out an entry twice
 *   keep      sends one-octet addresses into another domain as they came
 *   fill      writes them as four octets, and fills them in from the port by
 *             which they go
 *   forget    knows no flooded datagram again
 *   source    knows it by its source alone, and takes the next one of the same
 *             source for a repeat
 *   idle      frees no pair in a sweep
 *   eager     frees in a sweep each pair that is a second old, whatever the
 *             lifetime
 *   miscount  counts one datagram too many as sent on
 *   stranger  answers an echo under the name of another system
 *   astray    sends the reply to another system than the one that asked
 *   less      says that an echo request came with a hop count one lower
 *   deaf      refuses what comes by port 2, as if that were not set up
 *   cramped   answers no echo, as if it were lent too little room
 *   two       keeps echo drop, where it is on, as a 2, which no call writes
 */
#include <stdbool.h>
#include <stdlib.h>
#include <string.h>

#include "harpjuniper.h"

#define BOARD const hj_board *board, size_t board_words
#define MISSION hj_mission *mission, size_t mission_words
#define LENT board, board_words, mission, mission_words
#define ARRIVAL                                                                \
    const hj_record *routes, size_t route_count, uint32_t port, uint16_t slot, \
        uint32_t second, const uint8_t *octets, size_t length,                \
        uint8_t *output, size_t room
#define ARRIVED(octets)                                                        \
    routes, route_count, port, slot, second, octets, length, output, room
#define REQUEST                                                                \
    const hj_record *routes, size_t route_count, uint32_t port, uint16_t slot, \
        const uint8_t *octets, size_t length, uint8_t *output, size_t room

hj_answer __real_hj_take(BOARD, MISSION, uint32_t port);
hj_answer __wrap_hj_take(BOARD, MISSION, uint32_t port);
hj_verdict __real_hj_receive_at(BOARD, MISSION, ARRIVAL);
hj_verdict __wrap_hj_receive_at(BOARD, MISSION, ARRIVAL);
hj_verdict __real_hj_echo(BOARD, MISSION, REQUEST);
hj_verdict __wrap_hj_echo(BOARD, MISSION, REQUEST);
uint32_t __real_hj_set_echo_drop(hj_board *board, size_t board_words,
                                 uint32_t drop);
uint32_t __wrap_hj_set_echo_drop(hj_board *board, size_t board_words,
                                 uint32_t drop);
uint32_t __real_hj_sweep(BOARD, MISSION, uint32_t second);
uint32_t __wrap_hj_sweep(BOARD, MISSION, uint32_t second);
hj_answer __real_hj_counter(const hj_mission *mission, size_t mission_words,
                            uint32_t counter);
hj_answer __wrap_hj_counter(const hj_mission *mission, size_t mission_words,
                            uint32_t counter);

static bool wrong(const char *kind)
{
    const char *said = getenv("WRONG_RELAY");

    return said != NULL && strcmp(said, kind) == 0;
}

/* ---- Entries ----------------------------------------------------------- */

/* The entry that the next take of its port hands out; one at a time. */
static struct {
    const hj_mission *mission;
    uint32_t port;
    hj_answer entry;
} aside;

static void set_aside(const hj_mission *mission, uint32_t port,
                      hj_answer entry)
{
    aside.mission = mission;
    aside.port = port;
    aside.entry = entry;
}

static hj_answer lose(BOARD, MISSION, uint32_t port)
{
    if (hj_value(hj_waiting(mission, mission_words, port)) >= 2)
        (void)__real_hj_take(LENT, port);
    return __real_hj_take(LENT, port);
}

static hj_answer swap(BOARD, MISSION, uint32_t port)
{
    if (aside.mission == NULL &&
        hj_value(hj_waiting(mission, mission_words, port)) >= 2)
        set_aside(mission, port, __real_hj_take(LENT, port));
    return __real_hj_take(LENT, port);
}

static hj_answer repeat(BOARD, MISSION, uint32_t port)
{
    hj_answer entry = __real_hj_take(LENT, port);

    if (aside.mission == NULL && hj_refusal(entry) == HJ_DONE)
        set_aside(mission, port, entry);
    return entry;
}

hj_answer __wrap_hj_take(BOARD, MISSION, uint32_t port)
{
    if (aside.mission == mission && aside.port == port) {
        aside.mission = NULL;
        return aside.entry;
    }
    if (wrong("lose"))
        return lose(LENT, port);
    if (wrong("swap"))
        return swap(LENT, port);
    return wrong("repeat") ? repeat(LENT, port) : __real_hj_take(LENT, port);
}

/* ---- Headers ----------------------------------------------------------- */

/* The verdict of a relay that has no second header. */
static hj_verdict keep(hj_verdict verdict, const uint8_t *octets,
                       uint8_t *output)
{
    for (uint32_t port = 0; port < HJ_PORTS; port++) {
        if (hj_rewritten(verdict) >> port & 1)
            memcpy(output + HJ_HEADER_ROOM * port, octets,
                   hj_data_from(verdict));
    }
    return verdict & UINT64_C(0xffffffffffff);
}

/* A header of so many octets, read without the data behind it. */
static hj_reading read_alone(const uint8_t *header, uint32_t octets)
{
    static uint8_t copy[HJ_MOST_LENGTH];

    memcpy(copy, header, octets);
    return hj_read(copy, sizeof copy);
}

static void write_again(const hj_reading *reading, uint8_t *header)
{
    (void)hj_build(reading->fields, reading->length - reading->header, header,
                   HJ_HEADER_ROOM);
}

/* A rewritten header, its addresses moved into the domain of an address. */
static void move(uint8_t *header, uint32_t octets, uint32_t address)
{
    hj_reading reading = read_alone(header, octets);
    uint32_t domain = address & 0xffffff00;

    reading.fields.destination_low =
        domain | (reading.fields.destination_low & 0xff);
    reading.fields.source_low = domain | (reading.fields.source_low & 0xff);
    write_again(&reading, header);
}

static void fill(BOARD, hj_verdict verdict, uint8_t *output)
{
    for (uint32_t port = 0; port < HJ_PORTS; port++) {
        if (hj_rewritten(verdict) >> port & 1)
            move(output + HJ_HEADER_ROOM * port, hj_rewritten_octets(verdict),
                 hj_get_port(board, board_words, port).address);
    }
}

/* ---- Pairs ------------------------------------------------------------- */

/* The relay is shown another stamp than the one that came, and the headers that
 * it writes get back the one that came. */
static hj_verdict receive_restamped(BOARD, MISSION, ARRIVAL, uint64_t shown)
{
    static uint8_t lent[HJ_MOST_LENGTH];
    hj_reading reading = hj_read(octets, length);
    uint64_t came = reading.fields.time;
    hj_verdict verdict;

    memcpy(lent, octets, length);
    reading.fields.time = shown;
    write_again(&reading, lent);
    verdict = __real_hj_receive_at(LENT, ARRIVED(lent));
    for (uint32_t taker = 0; taker < HJ_PORTS; taker++) {
        uint8_t *header = output + HJ_HEADER_ROOM * taker;

        if ((hj_took(verdict) >> taker & 1) == 0)
            continue;
        reading = read_alone(header, hj_header_octets(verdict, taker));
        reading.fields.time = came;
        write_again(&reading, header);
    }
    return verdict;
}

/* A stamp that is never the same; three octets hold it. */
static uint64_t new_stamp(void)
{
    static uint64_t stamp;

    return ++stamp & 0xffffff;
}

uint32_t __wrap_hj_sweep(BOARD, MISSION, uint32_t second)
{
    hj_board impatient = *board;

    if (wrong("idle"))
        return HJ_DONE;
    if (!wrong("eager"))
        return __real_hj_sweep(LENT, second);
    (void)hj_set_lifetime(&impatient, board_words, 0);
    return __real_hj_sweep(&impatient, board_words, mission, mission_words,
                           second);
}

/* ---- Echoes ------------------------------------------------------------ */

/* The reply's message again, with a hop count that is one lower. */
static void say_less(uint8_t *output, const hj_reading *reading)
{
    static uint8_t data[HJ_MOST_LENGTH];
    uint8_t *octets = output + reading->header;
    uint32_t count = reading->length - reading->header;
    hj_message message;

    (void)hj_read_echo(octets, count, &message);
    memcpy(data, octets + message.data_from, count - message.data_from);
    message.hop_count = (message.hop_count - 1) & 0xff;
    (void)hj_build_echo(&message, data, count - message.data_from, octets,
                        count);
}

hj_verdict __wrap_hj_echo(BOARD, MISSION, REQUEST)
{
    size_t lent = wrong("cramped") ? 0 : room;
    hj_verdict verdict =
        __real_hj_echo(LENT, routes, route_count, port, slot, octets, length,
                       output, lent);
    hj_reading reading = hj_read(output, hj_reply_octets(verdict));

    if (hj_onward(verdict) != HJ_SENT_ON)
        return verdict;
    if (wrong("less"))
        say_less(output, &reading);
    if (!wrong("stranger") && !wrong("astray"))
        return verdict;
    if (wrong("stranger"))
        reading.fields.source_low ^= 0x20;
    else
        reading.fields.destination_low ^= 0x20;
    write_again(&reading, output);
    return verdict;
}

/* Echo drop is the board's last word. */
uint32_t __wrap_hj_set_echo_drop(hj_board *board, size_t board_words,
                                 uint32_t drop)
{
    uint32_t refusal = __real_hj_set_echo_drop(board, board_words, drop);

    if (wrong("two") && refusal == HJ_DONE)
        board->words[HJ_BOARD_WORDS - 1] *= 2;
    return refusal;
}

/* ---- What is wrapped besides ------------------------------------------- */

hj_answer __wrap_hj_counter(const hj_mission *mission, size_t mission_words,
                            uint32_t counter)
{
    hj_answer answer = __real_hj_counter(mission, mission_words, counter);

    return answer + (wrong("miscount") && counter == HJ_FORW_DATAGRAMS &&
                     hj_value(answer) > 0);
}

hj_verdict __wrap_hj_receive_at(BOARD, MISSION, ARRIVAL)
{
    hj_fields fields = hj_read(octets, length).fields;
    bool flooded = fields.routing == 3 && fields.stamp_format != HJ_STAMP_NONE;
    hj_verdict verdict;

    if (port == 2 && wrong("deaf"))
        return HJ_NO_PORT;
    if (flooded && wrong("forget"))
        return receive_restamped(LENT, ARRIVED(octets), new_stamp());
    if (flooded && wrong("source"))
        return receive_restamped(LENT, ARRIVED(octets), 0);
    verdict = __real_hj_receive_at(LENT, ARRIVED(octets));
    if (fields.extended)
        return verdict;
    if (wrong("fill"))
        fill(board, board_words, verdict, output);
    return wrong("keep") ? keep(verdict, octets, output) : verdict;
}
