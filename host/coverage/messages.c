/*
 * messages.c: what was reached of echo messages that are read and built, in
 * lists like those of header_lists.h. A message that is too short for a field
 * counts as zeros there.
 */
#include "messages.h"

#include <stdio.h>
#include <string.h>

#include "table.h"

#define MOST_MESSAGE 8141
#define REQUEST_FIXED 8
#define REPLY_FIXED 26

/* `m` are the octets of the message. */

#define READ_LIST(ROW)                                                        \
    ROW("0, a request", refusal == 0 && m[0] == 8)                            \
    ROW("0, a reply", refusal == 0 && m[0] == 0)                              \
    ROW("0, a request of 8 octets",                                           \
        refusal == 0 && m[0] == 8 && count == REQUEST_FIXED)                  \
    ROW("0, a reply of 26 octets",                                            \
        refusal == 0 && m[0] == 0 && count == REPLY_FIXED)                    \
    ROW("0, of odd length", refusal == 0 && count % 2 == 1)                   \
    ROW("0, checksum 0000", refusal == 0 && m[2] == 0 && m[3] == 0)           \
    ROW("5, checksum ffff carried",                                           \
        refusal == 5 && m[2] == 0xff && m[3] == 0xff)                         \
    ROW("0, a format over 3", refusal == 0 && m[0] == 0 && m[9] > 3)          \
    ROW("0, of over 8,139 octets", refusal == 0 && count > 8139)              \
    ROW("1, no octet", refusal == 1 && count == 0)                            \
    ROW("1, 7 octets", refusal == 1 && count == 7)                            \
    ROW("1, a reply of 8 octets", refusal == 1 && count == REQUEST_FIXED)     \
    ROW("1, a reply of 25 octets", refusal == 1 && count == REPLY_FIXED - 1)  \
    ROW("1 before 4",                                                         \
        refusal == 1 && count > 1 && (m[1] != 0 || m[0] % 8 != 0))            \
    ROW("4, type", refusal == 4 && m[0] != 0 && m[0] != 8)                    \
    ROW("4, code of a request", refusal == 4 && m[0] == 8)                    \
    ROW("4, code of a reply", refusal == 4 && m[0] == 0)                      \
    ROW("4 before 1, a reply under 26 octets",                                \
        refusal == 4 && m[0] == 0 && count < REPLY_FIXED)                     \
    ROW("5, a request", refusal == 5 && m[0] == 8)                            \
    ROW("5, a reply", refusal == 5 && m[0] == 0)

#define BUILD_LIST(ROW)                                                       \
    ROW("0, no data", refusal == 0 && count == REQUEST_FIXED)                 \
    ROW("0, of odd length", refusal == 0 && count % 2 == 1)                   \
    ROW("0, room as long as the message", refusal == 0 && room == count)      \
    ROW("0, room longer", refusal == 0 && room > count)                       \
    ROW("0, identifier 65,535", refusal == 0 && identifier == 65535)          \
    ROW("0, of 8,141 octets", refusal == 0 && count == MOST_MESSAGE)          \
    ROW("17, room one octet short", refusal == 17 && room + 1 == count)       \
    ROW("17, room under 8 octets", refusal == 17 && room < REQUEST_FIXED)     \
    ROW("17 before 20", refusal == 17 && count > MOST_MESSAGE)                \
    ROW("20, of 8,142 octets", refusal == 20 && count == MOST_MESSAGE + 1)

#define NAME(name, condition) name,
#define COUNT(name, condition) *reached++ += (condition) ? 1 : 0;

static const char *const READ_NAMES[] = {READ_LIST(NAME)};
static const char *const BUILD_NAMES[] = {BUILD_LIST(NAME)};

static struct {
    uint64_t read[6];
    uint64_t build[21];
    uint64_t of_read[LENGTH(READ_NAMES)];
    uint64_t of_build[LENGTH(BUILD_NAMES)];
} tally;

bool count_read_echo(const struct trace_call *call,
                     const struct trace_call *answer)
{
    static uint8_t m[TRACE_MOST_OCTETS];
    uint64_t refusal = answered_number(5, answer->words[0]);
    uint64_t *reached = tally.of_read;
    size_t count;

    memset(m, 0, REPLY_FIXED);
    if (!trace_octets(call->words[1], m, &count))
        return false;
    tally.read[refusal]++;
    READ_LIST(COUNT)
    return true;
}

bool count_build_echo(const struct trace_call *call,
                      const struct trace_call *answer)
{
    uint64_t refusal = answered_number(20, answer->words[0]);
    uint64_t room = answered_number(UINT64_MAX, call->words[1]);
    uint64_t identifier = answered_number(UINT16_MAX, call->words[2]);
    uint64_t data =
        trace_is(call->words[4], "-") ? 0 : call->words[4].length / 2;
    uint64_t count = REQUEST_FIXED + data;
    uint64_t *reached = tally.of_build;

    tally.build[refusal]++;
    BUILD_LIST(COUNT)
    return true;
}

static uint64_t sum_of(const uint64_t *numbers, size_t count)
{
    uint64_t sum = 0;

    for (size_t i = 0; i < count; i++)
        sum += numbers[i];
    return sum;
}

uint64_t read_echo_calls(void)
{
    return sum_of(tally.read, LENGTH(tally.read));
}

uint64_t build_echo_calls(void)
{
    return sum_of(tally.build, LENGTH(tally.build));
}

void say_messages(void)
{
    static const char *const READ[6] = {
        [0] = "read_echo: 0, good",        [1] = "read_echo: 1, short",
        [4] = "read_echo: 4, type or code", [5] = "read_echo: 5, checksum"};
    static const char *const BUILD[21] = {[0] = "build_echo: 0, done",
                                          [17] = "build_echo: 17, room",
                                          [20] = "build_echo: 20, too long"};

    puts("Echo messages read:");
    say_answers(READ, tally.read, LENGTH(tally.read));
    say_list(READ_NAMES, tally.of_read, LENGTH(READ_NAMES));
    puts("Echo messages built:");
    say_answers(BUILD, tally.build, LENGTH(tally.build));
    say_list(BUILD_NAMES, tally.of_build, LENGTH(BUILD_NAMES));
}
