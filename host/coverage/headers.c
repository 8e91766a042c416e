/*
 * headers.c: one tally for each list of header_lists.h, whose rows are a name
 * and the condition that counts a line for it, and tallies of the answers.
 *
 * The awkward case is a number that must be reached in all its values, such as
 * the 256 P-fields: the table has one row for it, that of the value reached
 * least.
 */
#include "headers.h"

#include <stdio.h>
#include <string.h>

#include "header_lists.h"
#include "messages.h"
#include "table.h"

static uint64_t number_of(struct trace_word word)
{
    return answered_number(UINT64_MAX, word);
}

static bool is_present(struct trace_word word)
{
    return !trace_is(word, "-");
}

static uint32_t element_of(struct trace_word word)
{
    return is_present(word) ? (uint32_t)number_of(word) : 0;
}

/* The fourteen fields, as they stand in a read's answer and a build's call. */
static struct fields fields_of(const struct trace_word *words)
{
    struct trace_word first_octet = words[10];
    struct fields fields = {0};
    uint64_t high;

    fields.tp_id = element_of(words[0]);
    trace_wide(words[1], &fields.destination_high, &fields.destination_low);
    fields.has_source = is_present(words[2]);
    if (fields.has_source)
        trace_wide(words[2], &fields.source_high, &fields.source_low);
    fields.extended = element_of(words[3]);
    fields.ipv6 = element_of(words[4]);
    fields.has_qos = is_present(words[5]);
    fields.precedence = element_of(words[5]);
    fields.routing = element_of(words[6]);
    fields.program = element_of(words[7]);
    fields.has_hop_count = is_present(words[8]);
    fields.hop_count = element_of(words[8]);
    fields.stamp_format = element_of(words[9]);
    if (first_octet.length > 2)
        first_octet.length = 2;
    if (is_present(words[10]))
        trace_wide(first_octet, &high, &fields.p_field);
    fields.has_expanded = is_present(words[11]);
    fields.expanded = element_of(words[11]);
    fields.has_checksum = element_of(words[12]);
    fields.intermediate = element_of(words[13]);
    return fields;
}

/* ---- One tally for each list --------------------------------------------- */

#define NAME(name, condition) name,
#define COUNT(name, condition) *reached++ += (condition);

static const char *const READ_NAMES[] = {READ_LIST(NAME)};
static const char *const REFUSED_NAMES[] = {REFUSED_LIST(NAME)};
static const char *const BUILD_NAMES[] = {BUILD_LIST(NAME)};

static struct {
    uint64_t read[6];
    uint64_t build[21];
    uint64_t class[7];
    uint64_t path[2];
    uint64_t checksum;
    uint64_t zero, ones, odd, even, none, longer;
    uint64_t tp_id[16];
    uint64_t precedence[16];
    uint64_t p_field[256];
    uint64_t of_read[LENGTH(READ_NAMES)];
    uint64_t of_refused[LENGTH(REFUSED_NAMES)];
    uint64_t of_build[LENGTH(BUILD_NAMES)];
} tally;

static bool count_good(const struct lent *lent, const struct trace_call *answer)
{
    uint64_t *reached = tally.of_read;
    uint64_t length = number_of(answer->words[1]);
    uint64_t header = number_of(answer->words[2]);
    struct fields fields = fields_of(answer->words + 3);

    if (header < 4 || header > length || length > lent->count)
        return false;
    READ_LIST(COUNT)
    tally.tp_id[fields.tp_id % 16]++;
    if (fields.has_qos)
        tally.precedence[fields.precedence % 16]++;
    if (fields.stamp_format == 2)
        tally.p_field[fields.p_field]++;
    return true;
}

static bool count_read(const struct trace_call *call,
                       const struct trace_call *answer)
{
    static uint8_t octets[TRACE_MOST_OCTETS];
    struct lent lent = {octets, 0};
    uint64_t refusal = answered_number(5, answer->words[0]);
    uint64_t *reached = tally.of_refused;

    memset(octets, 0, 5);
    if (!trace_octets(call->words[1], octets, &lent.count))
        return false;
    tally.read[refusal]++;
    if (refusal == 0)
        return count_good(&lent, answer);
    REFUSED_LIST(COUNT)
    return true;
}

static bool count_build(const struct trace_call *call,
                        const struct trace_call *answer)
{
    uint64_t refusal = answered_number(20, answer->words[0]);
    uint64_t header = answer->words[1].length / 2;
    uint64_t data = number_of(call->words[1]);
    uint64_t room = number_of(call->words[2]);
    struct fields fields = fields_of(call->words + 3);
    uint64_t *reached = tally.of_build;

    tally.build[refusal]++;
    BUILD_LIST(COUNT)
    return true;
}

static bool count_checksum(const struct trace_call *call,
                           const struct trace_call *answer)
{
    size_t octets =
        is_present(call->words[1]) ? call->words[1].length / 2 : 0;

    tally.checksum++;
    tally.zero += trace_is(answer->words[0], "0000");
    tally.ones += trace_is(answer->words[0], "ffff");
    tally.odd += octets % 2 == 1;
    tally.even += octets % 2 == 0;
    tally.none += octets == 0;
    tally.longer += octets > 200;
    return true;
}

/* ---- Lines --------------------------------------------------------------- */

bool count_header_line(enum call of, const struct trace_call *call,
                       const struct trace_call *answer)
{
    switch (of) {
    case CALL_READ:
        return count_read(call, answer);
    case CALL_BUILD:
        return count_build(call, answer);
    case CALL_CLASS:
        tally.class[answered_number(6, answer->words[0])]++;
        return true;
    case CALL_PATH:
        tally.path[answered_number(1, answer->words[0])]++;
        return true;
    case CALL_CHECKSUM:
        return count_checksum(call, answer);
    case CALL_READ_ECHO:
        return count_read_echo(call, answer);
    case CALL_BUILD_REQUEST:
        return count_build_echo(call, answer);
    default:
        return false;
    }
}

/* ---- The table ----------------------------------------------------------- */

static uint64_t sum_of(const uint64_t *numbers, size_t count)
{
    uint64_t sum = 0;

    for (size_t i = 0; i < count; i++)
        sum += numbers[i];
    return sum;
}

struct header_calls header_calls(void)
{
    struct header_calls calls = {sum_of(tally.read, 6),
                                 sum_of(tally.build, 21),
                                 sum_of(tally.class, 7),
                                 sum_of(tally.path, 2), tally.checksum};

    return calls;
}

static void say_reads_and_builds(void)
{
    static const char *const READ[6] = {
        "read: 0, good",   "read: 1, short", "read: 2, version",
        "read: 3, length", "read: 4, form",  "read: 5, checksum"};
    static const char *const BUILD[21] = {[0] = "build: 0, done",
                                          [17] = "build: 17, room",
                                          [19] = "build: 19, range",
                                          [20] = "build: 20, data"};

    say_answers(READ, tally.read, 6);
    puts("Good headers:");
    say_list(READ_NAMES, tally.of_read, LENGTH(READ_NAMES));
    say_least("TP-ID", tally.tp_id, 16);
    say_least("precedence", tally.precedence, 16);
    say_least("P-field", tally.p_field, 256);
    puts("Refused headers:");
    say_list(REFUSED_NAMES, tally.of_refused, LENGTH(REFUSED_NAMES));
    puts("Builds:");
    say_answers(BUILD, tally.build, 21);
    say_list(BUILD_NAMES, tally.of_build, LENGTH(BUILD_NAMES));
}

static void say_addresses(void)
{
    static const char *const CLASSES[7] = {
        "class: 0, invalid",          "class: 1, unicast",
        "class: 2, multicast",        "class: 3, net broadcast",
        "class: 4, domain broadcast", "class: 5, broadcast of all SCPS",
        "class: 6, limited broadcast"};
    static const char *const PATHS[2] = {"path: 0", "path: 1, valid"};

    puts("Addresses:");
    say_answers(CLASSES, tally.class, 7);
    say_answers(PATHS, tally.path, 2);
}

static void say_checksums(void)
{
    puts("Checksums:");
    say_row("checksum: 0000", tally.zero, LEAST);
    say_row("checksum: ffff", tally.ones, LEAST);
    say_row("of an odd number of octets", tally.odd, LEAST);
    say_row("of an even number of octets", tally.even, LEAST);
    say_row("of no octets", tally.none, LEAST);
    say_row("of over 200 octets", tally.longer, LEAST);
}

void say_headers(void)
{
    say_reads_and_builds();
    say_addresses();
    say_checksums();
    say_messages();
}
