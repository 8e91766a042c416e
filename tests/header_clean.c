/*
 * header_clean.c: include/harpjuniper.h read as C99 and as C++11, twice, with
 * every warning an error. Each name that it promises is used at its type.
 */
#include "harpjuniper.h"
#include "harpjuniper.h"

int header_calls(void);
int echo_calls(void);
int relay_calls(void);
int read_calls(void);
int setting_calls(void);
int accessors(void);
int constants(void);
int numbers(void);

int header_calls(void)
{
    hj_reading (*read)(const uint8_t *, size_t) = hj_read;
    hj_answer (*build)(hj_fields, size_t, uint8_t *, size_t) = hj_build;
    uint32_t (*read_words)(const uint8_t *, size_t, uint32_t *,
                           size_t) = hj_read_words;
    hj_answer (*build_words)(const uint32_t *, size_t, size_t, uint8_t *,
                             size_t) = hj_build_words;
    hj_fields (*unpack)(const uint32_t *) = hj_unpack;
    void (*pack)(const hj_fields *, uint32_t *) = hj_pack;
    uint32_t (*class_of)(uint32_t) = hj_class;
    uint32_t (*path)(uint32_t) = hj_path;
    uint16_t (*checksum)(const uint8_t *, size_t) = hj_checksum;

    return read && build && read_words && build_words && unpack && pack &&
           class_of && path && checksum;
}

int echo_calls(void)
{
    uint32_t (*read)(const uint8_t *, size_t, hj_message *) = hj_read_echo;
    uint32_t (*read_words)(const uint8_t *, size_t, uint32_t *,
                           size_t) = hj_read_echo_words;
    hj_answer (*request)(uint16_t, uint16_t, const uint8_t *, size_t,
                         uint8_t *, size_t) = hj_build_request;
    hj_answer (*reply)(uint16_t, uint16_t, uint8_t, uint8_t, uint64_t,
                       uint32_t, uint32_t, const uint8_t *, size_t, uint8_t *,
                       size_t) = hj_build_reply;
    hj_answer (*build)(const hj_message *, const uint8_t *, size_t, uint8_t *,
                       size_t) = hj_build_echo;
    hj_verdict (*echo)(const hj_board *, size_t, hj_mission *, size_t,
                       const hj_record *, size_t, uint32_t, uint16_t,
                       const uint8_t *, size_t, uint8_t *, size_t) = hj_echo;

    return read && read_words && request && reply && build && echo;
}

int relay_calls(void)
{
    uint32_t (*const words[])(void) = {hj_board_words, hj_mission_words};
    uint32_t (*board)(hj_board *, size_t) = hj_fresh_board;
    uint32_t (*mission)(hj_mission *, size_t, uint32_t) = hj_fresh_mission;
    hj_verdict (*receive)(const hj_board *, size_t, hj_mission *, size_t,
                          const hj_record *, size_t, hj_arrival,
                          const uint8_t *, size_t, uint8_t *,
                          size_t) = hj_receive;
    hj_verdict (*receive_at)(const hj_board *, size_t, hj_mission *, size_t,
                             const hj_record *, size_t, uint32_t, uint16_t,
                             uint32_t, const uint8_t *, size_t, uint8_t *,
                             size_t) = hj_receive_at;
    uint32_t (*many)(const hj_board *, size_t, hj_mission *, size_t,
                     const hj_record *, size_t, const uint32_t *, size_t,
                     const uint32_t *, size_t, const uint16_t *, size_t,
                     const uint32_t *, size_t, const uint8_t *, size_t,
                     hj_verdict *, size_t, uint8_t *,
                     size_t) = hj_receive_many;
    uint32_t (*add)(hj_batch *, hj_arrival, uint32_t) = hj_batch_add;
    uint32_t (*batch)(const hj_board *, size_t, hj_mission *, size_t,
                      const hj_record *, size_t, hj_batch *, const uint8_t *,
                      size_t) = hj_receive_batch;
    uint32_t (*sweep)(const hj_board *, size_t, hj_mission *, size_t,
                      uint32_t) = hj_sweep;
    hj_answer (*take)(const hj_board *, size_t, hj_mission *, size_t,
                      uint32_t) = hj_take;
    hj_found (*search)(const hj_board *, size_t, const hj_mission *, size_t,
                       const hj_record *, size_t, uint32_t) = hj_search;

    return words[0] && board && mission && receive && receive_at && many &&
           add && batch && sweep && take && search;
}

int read_calls(void)
{
    typedef hj_answer of_board(const hj_board *, size_t);
    typedef hj_answer of_mission(const hj_mission *, size_t, uint32_t);
    typedef hj_answer word(const hj_mission *, size_t, uint32_t, uint32_t);
    of_mission *const looks[] = {hj_counter, hj_waiting};
    word *const words[] = {hj_group_word, hj_path_word, hj_pair_word};
    of_board *const boards[] = {hj_get_router, hj_get_lifetime,
                                hj_get_echo_drop};
    hj_answer (*second)(const hj_mission *, size_t) = hj_last_second;
    hj_answer (*port_word)(const hj_board *, size_t, uint32_t,
                           uint32_t) = hj_port_word;
    hj_answer (*route_word)(const hj_record *, size_t, uint32_t,
                            uint32_t) = hj_route_word;
    hj_port (*port)(const hj_board *, size_t, uint32_t) = hj_get_port;
    hj_route (*route)(const hj_record *, size_t, uint32_t) = hj_get_route;
    hj_group (*group)(const hj_mission *, size_t, uint32_t) = hj_get_group;
    hj_path_place (*path)(const hj_mission *, size_t, uint32_t) = hj_get_path;
    hj_pair (*pair)(const hj_mission *, size_t, uint32_t) = hj_get_pair;

    return looks[0] && words[0] && boards[0] && second && port_word &&
           route_word && port && route && group && path && pair;
}

int setting_calls(void)
{
    typedef uint32_t place(const hj_board *, size_t, hj_mission *, size_t,
                           uint32_t, uint32_t, uint32_t, uint32_t);
    typedef uint32_t of_board(hj_board *, size_t, uint32_t);
    typedef uint32_t clear(hj_mission *, size_t, uint32_t);
    place *const places[] = {hj_set_group, hj_set_path};
    clear *const clears[] = {hj_clear_group, hj_clear_path};
    of_board *const boards[] = {hj_set_router, hj_set_lifetime,
                                hj_set_echo_drop};
    uint32_t (*port)(hj_board *, size_t, uint32_t, uint32_t, uint32_t,
                     uint32_t, uint32_t) = hj_set_port;
    uint32_t (*route)(const hj_board *, size_t, hj_record *, size_t, uint32_t,
                      uint32_t, uint32_t, uint32_t, uint32_t, uint32_t,
                      uint32_t) = hj_set_route;
    uint32_t (*clear_route)(hj_record *, size_t, uint32_t) = hj_clear_route;

    return places[0] && clears[0] && boards[0] && port && route && clear_route;
}

int accessors(void)
{
    uint32_t (*const of_answer[])(hj_answer) = {hj_refusal, hj_value,
                                                hj_precedence};
    uint16_t (*slot)(hj_answer) = hj_slot;
    uint32_t (*const of_verdict[])(hj_verdict) = {
        hj_ended_by, hj_local,     hj_onward,           hj_took,
        hj_dropped,  hj_data_from, hj_rewritten_octets, hj_rewritten,
        hj_reply_octets};
    uint32_t (*octets)(hj_verdict, uint32_t) = hj_header_octets;
    const uint8_t *(*header)(const uint8_t *, uint32_t) = hj_header;
    const uint8_t *(*item)(const uint8_t *, size_t) = hj_item_output;
    uint32_t (*const of_found[])(hj_found) = {hj_found_refusal, hj_is_found,
                                              hj_found_place, hj_found_ones,
                                              hj_found_port};

    return of_answer[0] && slot && of_verdict[0] && octets && header && item &&
           of_found[0];
}

int constants(void)
{
    const char version[] = HJ_VERSION;
    const int versions[] = {HJ_VERSION_MAJOR, HJ_VERSION_MINOR,
                            HJ_VERSION_PATCH};
    const int limits[] = {HJ_BOARD_WORDS,   HJ_MISSION_WORDS,
                          HJ_READING_WORDS, HJ_FIELD_WORDS,
                          HJ_HEADER_ROOM,   HJ_OUTPUT_ROOM,
                          HJ_MOST_DATA,     HJ_MOST_LENGTH,
                          HJ_MISSIONS,      HJ_PORTS,
                          HJ_ROUTES,        HJ_GROUPS,
                          HJ_PATHS,         HJ_QUEUE,
                          HJ_PORT_NUMBERS,  HJ_ROUTE_NUMBERS,
                          HJ_GROUP_NUMBERS, HJ_PATH_NUMBERS,
                          HJ_PAIR_NUMBERS,  HJ_PAIRS,
                          HJ_MESSAGE_WORDS, HJ_REQUEST_OCTETS,
                          HJ_REPLY_OCTETS,  HJ_MOST_ITEMS};
    const int classes[] = {HJ_INVALID,        HJ_UNICAST,
                           HJ_MULTICAST,      HJ_NET_BROADCAST,
                           HJ_DOMAIN_BROADCAST, HJ_SCPS_BROADCAST,
                           HJ_LIMITED_BROADCAST};
    const int codes[] = {HJ_STAMP_NONE,   HJ_STAMP_IMPLICIT,
                         HJ_STAMP_EXPLICIT, HJ_STAMP_BINARY,
                         HJ_UP,           HJ_DOWN,
                         HJ_TESTING,      HJ_OUT,
                         HJ_CAPABLE_NONE, HJ_CAPABLE_CHECKSUM,
                         HJ_CAPABLE_HOP_COUNT, HJ_CAPABLE_BOTH,
                         HJ_LOCAL_NO,     HJ_DELIVERED,
                         HJ_NOT_ASKED,    HJ_SENT_ON,
                         HJ_NO_REPLY,     HJ_TP_SCMP,
                         HJ_ECHO_REPLY,   HJ_ECHO_REQUEST};

    return version[0] + versions[0] + limits[0] + classes[0] + codes[0];
}

int numbers(void)
{
    const int refusals[] = {
        HJ_DONE,          HJ_SHORT,         HJ_BAD_VERSION,
        HJ_BAD_LENGTH,    HJ_BAD_FORM,      HJ_BAD_CHECKSUM,
        HJ_BAD_ADDRESS,   HJ_NO_DOMAIN,     HJ_NOT_CARRIED,
        HJ_NOT_FOR_US,    HJ_HOPS_USED_UP,  HJ_NO_ROUTE,
        HJ_NOT_UP,        HJ_LEAVES_DOMAIN, HJ_TOO_BIG,
        HJ_QUEUES_FULL,   HJ_NO_PORT,       HJ_SHORT_OUTPUT,
        HJ_NOTHING_WAITING, HJ_FIELD_RANGE, HJ_DATA_TOO_LONG,
        HJ_BAD_NUMBER,    HJ_BAD_MASK,      HJ_SAME_ENTRY,
        HJ_BAD_CODE,      HJ_WRONG_CLASS,   HJ_UNKNOWN_TP_ID,
        HJ_BAD_BATCH,     HJ_FLOOD_UNMARKED, HJ_SECOND_PAST,
        HJ_PAIRS_HELD,    HJ_PORT_SET_UP};
    const int counters[HJ_COUNTERS] = {
        HJ_IN_RECEIVES,       HJ_IN_BAD_LENGTH,  HJ_IN_BAD_VERSION,
        HJ_IN_BAD_ADDRESS,    HJ_IN_BAD_CHECKSUM, HJ_UNSUPPORTED,
        HJ_IN_ADDR_ERRORS,    HJ_IN_UNKNOWN_PROTOS, HJ_IN_DELIVERS,
        HJ_FORW_HOP_DISCARD,  HJ_FORW_DATAGRAMS, HJ_OUT_NO_ROUTES,
        HJ_OUT_DISCARDS,      HJ_LEFT_DOMAIN,    HJ_TOO_BIG_COUNT,
        HJ_FLOOD_UNMARKED_COUNT, HJ_PAIRS_HELD_COUNT, HJ_OUT_REQUESTS};

    return refusals[0] + counters[17];
}
