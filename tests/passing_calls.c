/*
 * passing_calls.c: how numbers go between C and the library, in registers and on
 * the stack.
 *
 * A number of under 64 bits fills a part of its place. The library may not look
 * at the rest of it: on x86-64 and aarch64 a caller may leave anything there, and
 * on riscv64 it fills it up. In return the library has to fill up the register
 * that it answers in on riscv64, since there a caller may rely on that. A C
 * compiler does all of this by itself, so here the calls are declared once more,
 * with 64 bits for every number. And what a pointer refers to has to be aligned
 * as scripts/lower says that it is.
 */
#include <stddef.h>

#include "routed.h"

/* What may stand above a number of 32, 16 or 8 bits. */
#define ABOVE_32 0x5a5a5a5a00000000u
#define ABOVE_16 0x5a5a5a5a5a5a0000u
#define ABOVE_8 0x5a5a5a5a5a5a5a00u

#define SET_UP_MTU 8191

uint64_t wide_class(uint64_t address) __asm__("hj_class");
uint64_t wide_set_port(hj_board *lent, size_t words, uint64_t port,
                       uint64_t address, uint64_t mask, uint64_t mtu,
                       uint64_t whose) __asm__("hj_set_port");
uint64_t wide_receive_at(const hj_board *lent, size_t board_words,
                         hj_mission *state, size_t mission_words,
                         const hj_record *list, size_t route_count,
                         uint64_t port, uint64_t slot, uint64_t second,
                         const uint8_t *octets, size_t length, uint8_t *output,
                         size_t room) __asm__("hj_receive_at");
uint64_t wide_build_reply(uint64_t identifier, uint64_t sequence,
                          uint64_t hop_count, uint64_t format, uint64_t stamp,
                          uint64_t mtu, uint64_t rate, const uint8_t *data,
                          size_t data_octets, uint8_t *output, size_t room)
    __asm__("hj_build_reply");

static void class_of_part(void)
{
    for (uint32_t first = 0; first < 256; first++) {
        uint32_t address = first << 24 | 0x04090f;

        expect((uint32_t)wide_class(ABOVE_32 | address) == hj_class(address),
               "class of the lower half");
    }
}

static void port_of_parts(void)
{
    hj_board other;

    set_up_router(SET_UP_MTU);
    other = board;
    expect((uint32_t)wide_set_port(&other, HJ_BOARD_WORDS, ABOVE_32 | 6,
                                   ABOVE_32 | 0x0a0a0d02, ABOVE_32 | MASK_24,
                                   ABOVE_32 | 1500, ABOVE_32 | 1) == HJ_DONE,
           "a port set by the lower halves");
    set_port_of(1, 6, 0x0a0a0d02, 1500);
    expect(memcmp(&board, &other, sizeof board) == 0, "and as without the rest");
}

/* Port and slot stand in registers on aarch64 and riscv64, and on the stack on
 * x86-64; the second on the stack on all of them. */
static void received_by_parts(void)
{
    uint8_t octets[64], outputs[2][HJ_OUTPUT_ROOM];
    size_t count = octets_of("200f5b610a04090e0a0a0a04401d6f", octets);
    hj_arrival arrival = {.port = 0, .slot = 0xbeef, .second = 0x80000001};
    hj_mission other;
    hj_verdict verdict;

    set_up_routed(SET_UP_MTU);
    other = mission;
    memset(outputs, UNTOUCHED, sizeof outputs);
    verdict = hj_receive(BOARD, MISSION, ROUTES, arrival, octets, count,
                         outputs[0], HJ_OUTPUT_ROOM);
    expect(hj_onward(verdict) == HJ_SENT_ON && counter(HJ_FORW_DATAGRAMS) == 1,
           "sent on");
    expect(wide_receive_at(BOARD, &other, HJ_MISSION_WORDS, ROUTES,
                           ABOVE_32 | arrival.port, ABOVE_16 | arrival.slot,
                           ABOVE_32 | arrival.second, octets, count,
                           outputs[1], HJ_OUTPUT_ROOM) == verdict,
           "the same verdict by the parts");
    expect(memcmp(&mission, &other, sizeof mission) == 0, "the same state");
    expect(memcmp(outputs[0], outputs[1], HJ_OUTPUT_ROOM) == 0, "the same output");
}

static void built_of_parts(void)
{
    static const uint8_t data[] = {1, 2, 3};
    uint8_t outputs[2][64];
    hj_answer answer;

    memset(outputs, UNTOUCHED, sizeof outputs);
    answer = hj_build_reply(0x8001, 0xfffe, 200, 255, 0xfedcba9876543210, 0x89abcdef,
                            0x80000000, data, sizeof data, outputs[0], 64);
    expect(hj_refusal(answer) == 0, "a reply");
    expect(wide_build_reply(ABOVE_16 | 0x8001, ABOVE_16 | 0xfffe, ABOVE_8 | 200,
                            ABOVE_8 | 255, 0xfedcba9876543210, ABOVE_32 | 0x89abcdef,
                            ABOVE_32 | 0x80000000, data, sizeof data, outputs[1],
                            64) == answer,
           "the same answer by the parts");
    expect(memcmp(outputs[0], outputs[1], 64) == 0, "the same message");
}

/* ---- What is lent */

#define ALIGNMENT(type) offsetof(struct { char before; type lent; }, lent)

/* The numbers that ALIGNED, in scripts/lower, has. */
static void lent_is_aligned(void)
{
    expect(ALIGNMENT(uint16_t) == 2, "two octets");
    expect(ALIGNMENT(uint32_t) == 4 && ALIGNMENT(hj_board) == 4 &&
               ALIGNMENT(hj_mission) == 4 && ALIGNMENT(hj_record) == 4,
           "words");
    expect(ALIGNMENT(hj_verdict) == 8, "verdicts");
}

/* ---- What is answered */

#if defined(__riscv)
/* Any call, with as many numbers as the longest takes. All of them are 0, so that
 * nothing is lent. Its answer is small, so what is left above it is 0. */
typedef uint64_t any_call(uint64_t, uint64_t, uint64_t, uint64_t, uint64_t,
                          uint64_t, uint64_t, uint64_t, uint64_t, uint64_t,
                          uint64_t, uint64_t, uint64_t, uint64_t, uint64_t,
                          uint64_t, uint64_t, uint64_t, uint64_t, uint64_t);
#define ANY(name) extern any_call any_##name __asm__("hj_" #name);
#define NAMED(name) {any_##name, #name},
#define NARROW(each) \
    each(read_words) each(path) each(read_echo_words) each(board_words) \
    each(mission_words) each(fresh_board) each(fresh_mission) \
    each(set_router) each(set_lifetime) each(set_echo_drop) each(set_port) \
    each(set_route) each(clear_route) each(set_group) each(set_path) \
    each(clear_group) each(clear_path) each(receive_many) each(sweep)

NARROW(ANY)
uint64_t wide_checksum(const uint8_t *octets, size_t count) __asm__("hj_checksum");

/* 16 bits fill the register with zeros, 32 bits with their sign. */
static void answers_fill_the_register(void)
{
    static const struct {
        any_call *call;
        const char *name;
    } calls[] = {NARROW(NAMED)};

    for (uint32_t first = 0; first < 256; first++) {
        uint8_t octets[] = {(uint8_t)first, 0, 1};
        uint64_t sum = wide_checksum(octets, sizeof octets);

        expect(sum == (uint16_t)sum, "checksum");
        expect(wide_class(first << 24) <= HJ_LIMITED_BROADCAST, "class");
    }
    for (size_t i = 0; i < sizeof calls / sizeof *calls; i++) {
        uint64_t answer = calls[i].call(0, 0, 0, 0, 0, 0, 0, 0, 0, 0, 0, 0, 0, 0, 0,
                                        0, 0, 0, 0, 0);

        expect(answer == (uint64_t)(int32_t)answer, calls[i].name);
    }
}
#else
static void answers_fill_the_register(void)
{
    /* No other target asks for it. */
}
#endif

int main(void)
{
    class_of_part();
    port_of_parts();
    received_by_parts();
    built_of_parts();
    lent_is_aligned();
    answers_fill_the_register();
    return expect_end("passing_calls");
}
