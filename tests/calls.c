/*
 * calls.c: what a C program can ask of the library and no trace can say.
 *
 * The trace form has no place for an absent element with a value, for a flag
 * that is neither 0 nor 1, or for a time field too large for its octets; the C
 * struct has. Each of them must be 19, with nothing written. Null pointers with
 * a count of 0 are good. The words that the inline calls pack and unpack are
 * tried field by field, and in every wrong number.
 */
#include <stdbool.h>
#include <string.h>

#include "expect.h"
#include "harpjuniper.h"

#define UNTOUCHED 0xa5

/* A header with every element, addresses of four octets. */
static hj_fields full(void)
{
    hj_fields fields = {.destination_low = 0x0a04090e,
                        .source_low = 0x0a0a0a04,
                        .time = 0xffffff,
                        .tp_id = 5,
                        .has_source = 1,
                        .extended = 1,
                        .has_qos = 1,
                        .precedence = 15,
                        .routing = 3,
                        .program = 3,
                        .has_hop_count = 1,
                        .hop_count = 255,
                        .stamp_format = HJ_STAMP_IMPLICIT,
                        .has_expanded = 1,
                        .expanded = 255,
                        .has_checksum = 1,
                        .intermediate = 1};
    return fields;
}

/* The shortest header: a path of one octet. */
static hj_fields bare(void)
{
    hj_fields fields = {.destination_low = 255};
    return fields;
}

static void expect_refused(hj_fields fields, uint32_t refusal, size_t data,
                           size_t room, const char *what)
{
    uint8_t output[HJ_HEADER_ROOM + 1];
    uint8_t before[sizeof output];
    hj_answer built;

    memset(output, UNTOUCHED, sizeof output);
    memcpy(before, output, sizeof output);
    built = hj_build(fields, data, output, room);
    expect(hj_refusal(built) == refusal && hj_value(built) == 0 &&
               memcmp(output, before, sizeof output) == 0,
           what);
}

/* Built, and read again with nothing changed and nothing written behind it. */
static void expect_built(hj_fields fields, const char *what)
{
    uint8_t output[HJ_HEADER_ROOM + 1];
    hj_answer built;
    hj_reading reading;

    memset(output, UNTOUCHED, sizeof output);
    built = hj_build(fields, 0, output, HJ_HEADER_ROOM);
    reading = hj_read(output, hj_value(built));
    expect(hj_refusal(built) == 0 && reading.refusal == 0 &&
               reading.header == hj_value(built) &&
               reading.length == hj_value(built) && reading.reserved == 0 &&
               memcmp(&reading.fields, &fields, sizeof fields) == 0 &&
               output[reading.header] == UNTOUCHED,
           what);
}

/* One field of a good header set to a value that must be refused. */
#define REFUSED(start, field, number)                                       \
    do {                                                                    \
        hj_fields fields = start();                                         \
        fields.field = (number);                                            \
        expect_refused(fields, HJ_FIELD_RANGE, 0, HJ_HEADER_ROOM,           \
                       #start " header, " #field " = " #number);            \
    } while (0)

static void check_flags(void)
{
    REFUSED(full, has_source, 2);
    REFUSED(full, extended, 2);
    REFUSED(full, ipv6, 2);
    REFUSED(full, has_qos, 2);
    REFUSED(full, has_hop_count, 2);
    REFUSED(full, has_expanded, 2);
    REFUSED(full, has_checksum, 2);
    REFUSED(full, intermediate, 2);
    REFUSED(full, stamp_format, 4);
    REFUSED(full, has_checksum, UINT32_MAX);
}

static void check_absent(void)
{
    REFUSED(bare, source_low, 1);
    REFUSED(bare, source_high, 1);
    REFUSED(bare, precedence, 1);
    REFUSED(bare, routing, 1);
    REFUSED(bare, program, 1);
    REFUSED(bare, hop_count, 1);
    REFUSED(bare, time, 1);
    REFUSED(bare, p_field, 1);
    REFUSED(bare, expanded, 1);
    REFUSED(full, has_source, 0);
    REFUSED(full, has_qos, 0);
    REFUSED(full, has_hop_count, 0);
    REFUSED(full, stamp_format, HJ_STAMP_NONE);
    REFUSED(full, has_expanded, 0);
}

static void check_ranges(void)
{
    REFUSED(full, tp_id, 16);
    REFUSED(full, destination_low, 0x100000000u);
    REFUSED(full, destination_high, 1);
    REFUSED(full, source_low, 0x100000000u);
    REFUSED(full, source_high, 1);
    REFUSED(full, extended, 0); /* four octets in an address of one */
    REFUSED(full, ipv6, 1);
    REFUSED(full, precedence, 16);
    REFUSED(full, routing, 4);
    REFUSED(full, program, 4);
    REFUSED(full, hop_count, 256);
    REFUSED(full, time, 0x1000000);
    REFUSED(full, p_field, 1); /* its format implies the P-field */
    REFUSED(full, expanded, 256);
    REFUSED(bare, destination_low, 256);
    REFUSED(bare, destination_high, 1);
    REFUSED(bare, ipv6, 1); /* without a source */
}

/* The largest time that the P-field gives room for, and the next one. */
static void check_times(void)
{
    hj_fields fields = full();

    for (uint32_t p_field = 0; p_field < 256; p_field++) {
        unsigned octets = 1 + p_field / 4 % 4 + p_field % 4;

        fields.stamp_format = HJ_STAMP_EXPLICIT;
        fields.p_field = p_field;
        fields.time = ((uint64_t)1 << 8 * octets) - 1;
        expect_built(fields, "the largest time of a P-field");
        fields.time++;
        expect_refused(fields, HJ_FIELD_RANGE, 0, HJ_HEADER_ROOM,
                       "a time over its P-field");
    }
    fields.time = 0;
    fields.p_field = 256;
    expect_refused(fields, HJ_FIELD_RANGE, 0, HJ_HEADER_ROOM, "P-field 256");
    fields.p_field = 0;
    fields.stamp_format = HJ_STAMP_BINARY;
    fields.time = 0xffffffff;
    expect_built(fields, "the largest binary time");
    fields.time++;
    expect_refused(fields, HJ_FIELD_RANGE, 0, HJ_HEADER_ROOM,
                   "a binary time over 32 bits");
}

static void check_order(void)
{
    hj_fields wrong = full();

    wrong.tp_id = 16;
    expect_built(full(), "every element");
    expect_built(bare(), "the shortest header");
    expect_refused(wrong, HJ_SHORT_OUTPUT, SIZE_MAX, HJ_HEADER_ROOM - 1,
                   "17 before 19 and 20");
    expect_refused(wrong, HJ_FIELD_RANGE, SIZE_MAX, HJ_HEADER_ROOM,
                   "19 before 20");
    expect_refused(full(), HJ_DATA_TOO_LONG, HJ_MOST_DATA + 1, HJ_HEADER_ROOM,
                   "8,142 octets of data");
    expect_refused(full(), HJ_DATA_TOO_LONG, SIZE_MAX, HJ_HEADER_ROOM,
                   "the greatest count of data");
}

/* ---- The words of the fields --------------------------------------------- */

/* Each member, by its name and how many words it has, in the words' order. */
#define FIELDS(FIELD)                                                         \
    FIELD(destination_high, 2)                                                \
    FIELD(destination_low, 2)                                                 \
    FIELD(source_high, 2)                                                     \
    FIELD(source_low, 2)                                                      \
    FIELD(time, 2)                                                            \
    FIELD(tp_id, 1)                                                           \
    FIELD(has_source, 1)                                                      \
    FIELD(extended, 1)                                                        \
    FIELD(ipv6, 1)                                                            \
    FIELD(has_qos, 1)                                                         \
    FIELD(precedence, 1)                                                      \
    FIELD(routing, 1)                                                         \
    FIELD(program, 1)                                                         \
    FIELD(has_hop_count, 1)                                                   \
    FIELD(hop_count, 1)                                                       \
    FIELD(stamp_format, 1)                                                    \
    FIELD(p_field, 1)                                                         \
    FIELD(has_expanded, 1)                                                    \
    FIELD(expanded, 1)                                                        \
    FIELD(has_checksum, 1)                                                    \
    FIELD(intermediate, 1)

/* A number of its own in each word. */
static uint32_t mark(uint32_t word)
{
    return 0x01020300u + word;
}

static void check_pack(void)
{
    uint32_t words[HJ_FIELD_WORDS], again[HJ_FIELD_WORDS];
    hj_fields fields;
    uint32_t at = 0;

    for (uint32_t i = 0; i < HJ_FIELD_WORDS; i++)
        words[i] = mark(i);
    fields = hj_unpack(words);
#define CHECK_FIELD(member, count)                                            \
    expect(fields.member ==                                                   \
               ((count) == 2 ? (uint64_t)mark(at) << 32 | mark(at + 1)        \
                             : mark(at)),                                     \
           "unpacked: " #member);                                             \
    at += (count);
    FIELDS(CHECK_FIELD)
    expect(at == HJ_FIELD_WORDS, "every word is a field's");
    hj_pack(&fields, again);
    expect(memcmp(words, again, sizeof words) == 0, "packed again");
}

/* One field of the fields is another, and one or two words are. */
#define CHECK_ALONE(member, count)                                            \
    {                                                                         \
        hj_fields fields = {0};                                               \
        uint32_t words[HJ_FIELD_WORDS];                                       \
        uint32_t others = 0;                                                  \
                                                                              \
        fields.member = ((count) == 2 ? (uint64_t)0x89abcdef << 32 : 0) |     \
                        0x01234567;                                           \
        hj_pack(&fields, words);                                              \
        for (uint32_t i = 0; i < HJ_FIELD_WORDS; i++)                         \
            others |= i < at || i >= at + (count) ? words[i] : 0;             \
        expect(others == 0 && words[at + (count) - 1] == 0x01234567 &&        \
                   ((count) == 1 || words[at] == 0x89abcdef),                 \
               "packed alone: " #member);                                     \
        at += (count);                                                        \
    }

static void check_alone(void)
{
    uint32_t at = 0;

    FIELDS(CHECK_ALONE)
}

/* What hj_read unpacks is what hj_read_words gives, field by field. */
static void check_read_words(void)
{
    uint8_t octets[HJ_HEADER_ROOM];
    size_t count = hj_value(hj_build(full(), 0, octets, sizeof octets));
    uint32_t words[HJ_READING_WORDS], again[HJ_FIELD_WORDS];
    hj_reading reading = hj_read(octets, count);

    expect(hj_read_words(octets, count, words, HJ_READING_WORDS) == HJ_DONE,
           "read_words");
    hj_pack(&reading.fields, again);
    expect(words[0] == reading.length && words[1] == reading.header &&
               memcmp(words + 2, again, sizeof again) == 0,
           "hj_read and hj_read_words");
    expect(hj_build_words(words + 2, HJ_FIELD_WORDS, 0, octets,
                          sizeof octets) == count,
           "hj_build_words of what was read");
}

/* 21 before all else, and nothing is written, not even with a good header. */
static void check_word_counts(void)
{
    enum { MOST = 64 };
    uint8_t octets[HJ_HEADER_ROOM], output[HJ_HEADER_ROOM];
    size_t count = hj_value(hj_build(full(), 0, octets, sizeof octets));
    uint32_t words[MOST], before[MOST];

    memset(words, UNTOUCHED, sizeof words);
    memcpy(before, words, sizeof words);
    memset(output, UNTOUCHED, sizeof output);
    for (size_t lent = 0; lent < MOST; lent++) {
        if (lent != HJ_READING_WORDS)
            expect(hj_read_words(octets, count, words, lent) == 21 &&
                       hj_read_words(NULL, 0, words, lent) == 21,
                   "read_words, a wrong number of words");
        if (lent != HJ_FIELD_WORDS)
            expect(hj_refusal(hj_build_words(words, lent, SIZE_MAX, NULL,
                                             0)) == 21 &&
                       hj_build_words(words, lent, 0, output,
                                      sizeof output) ==
                           (hj_answer)HJ_BAD_NUMBER << 32,
                   "build_words, a wrong number of words");
    }
    expect(hj_read_words(octets, 2, words, HJ_READING_WORDS) == HJ_SHORT,
           "a refused header");
    expect(memcmp(words, before, sizeof words) == 0, "words as lent");
    expect(output[0] == UNTOUCHED, "no octet is written");
    expect(hj_read_words(octets, count, NULL, 0) == 21 &&
               hj_refusal(hj_build_words(NULL, 0, 0, output, 0)) == 21,
           "no words at all");
}

static void check_null(void)
{
    expect(hj_read(NULL, 0).refusal == HJ_SHORT, "reading no octets");
    expect(hj_checksum(NULL, 0) == 0xffff, "the checksum of no octets");
    expect(hj_refusal(hj_build(full(), 0, NULL, 0)) == HJ_SHORT_OUTPUT,
           "building into no room");
}

int main(void)
{
    check_flags();
    check_absent();
    check_ranges();
    check_times();
    check_order();
    check_pack();
    check_alone();
    check_read_words();
    check_word_counts();
    check_null();
    return expect_end("calls");
}
