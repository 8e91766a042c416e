/*
 * Cases for headers, addresses and checksum. The octets were put together by
 * hand from tables 3-2 to 3-8 and the sums added by hand; the additions stand
 * beside the cases. The round trips at the end are run, not worked out: they
 * try the two laws of page 01 on many headers.
 *
 * The awkward case is the header of odd length with a checksum, so most of
 * the headers here are of that kind.
 */
#include <string.h>

#include "plain_address.h"
#include "plain_check.h"
#include "plain_checksum.h"
#include "plain_header.h"

enum { UNTOUCHED = 0xa5 };

static uint64_t class_of(uint32_t bits)
{
    plain_address address = {bits};
    return plain_address_class(address);
}

static uint64_t path_valid(uint32_t bits)
{
    plain_path path = {bits};
    return plain_path_valid(path);
}

static void test_marked_classes(void)
{
    CHECK_EQUAL(class_of(0x0a04090f), PLAIN_MULTICAST);        /* f */
    CHECK_EQUAL(class_of(0x0a0409fe), PLAIN_INVALID);          /* g */
    CHECK_EQUAL(class_of(0x0a0409ff), PLAIN_DOMAIN_BROADCAST); /* h */
    CHECK_EQUAL(class_of(0xac1000ff), PLAIN_UNICAST);          /* i */
    CHECK_EQUAL(class_of(0xac10ffff), PLAIN_NET_BROADCAST);    /* j */
    CHECK_EQUAL(class_of(0xf0000001), PLAIN_INVALID);          /* k */
}

static void test_classes_at_the_edges(void)
{
    CHECK_EQUAL(class_of(0xffffffff), PLAIN_LIMITED_BROADCAST);
    CHECK_EQUAL(class_of(0xfffffffe), PLAIN_INVALID);
    CHECK_EQUAL(class_of(0x0affffff), PLAIN_ALL_SCPS_BROADCAST);
    CHECK_EQUAL(class_of(0x0afffffe), PLAIN_INVALID);
    CHECK_EQUAL(class_of(0x0afffeff), PLAIN_DOMAIN_BROADCAST);
    CHECK_EQUAL(class_of(0x0a000000), PLAIN_UNICAST);
    CHECK_EQUAL(class_of(0x0a000001), PLAIN_MULTICAST);
    CHECK_EQUAL(class_of(0x0a0000fd), PLAIN_MULTICAST);
    CHECK_EQUAL(class_of(0x0a0000fc), PLAIN_UNICAST);
    CHECK_EQUAL(class_of(0x00ffffff), PLAIN_INVALID);
    CHECK_EQUAL(class_of(0x01000000), PLAIN_UNICAST);
    CHECK_EQUAL(class_of(0x01ffffff), PLAIN_NET_BROADCAST);
    CHECK_EQUAL(class_of(0x7effffff), PLAIN_NET_BROADCAST);
    CHECK_EQUAL(class_of(0x7f000001), PLAIN_INVALID);
    CHECK_EQUAL(class_of(0x80000000), PLAIN_UNICAST);
    CHECK_EQUAL(class_of(0xbfffffff), PLAIN_NET_BROADCAST);
    CHECK_EQUAL(class_of(0xbfff00ff), PLAIN_UNICAST);
    CHECK_EQUAL(class_of(0xc00002ff), PLAIN_NET_BROADCAST);
    CHECK_EQUAL(class_of(0xc00002fe), PLAIN_UNICAST);
    CHECK_EQUAL(class_of(0xdfffffff), PLAIN_NET_BROADCAST);
    CHECK_EQUAL(class_of(0xe0000000), PLAIN_MULTICAST);
    CHECK_EQUAL(class_of(0xefffffff), PLAIN_MULTICAST);
    CHECK_EQUAL(class_of(0xf0000000), PLAIN_INVALID);
}

static void test_paths(void)
{
    CHECK_EQUAL(path_valid(0x0a0409fe), 0);
    CHECK_EQUAL(path_valid(0x0a0409ff), 1);
    CHECK_EQUAL(path_valid(0x0a04090f), 1);
    CHECK_EQUAL(path_valid(0x0affffff), 1);
    CHECK_EQUAL(path_valid(0x0b040900), 0);
    CHECK_EQUAL(path_valid(0xffffffff), 0);
}

static void test_masks(void)
{
    static const struct { uint32_t bits, contiguous, ones; } cases[] = {
        {0x00000000, 1, 0},  {0x80000000, 1, 1},  {0xff000000, 1, 8},
        {0xfffffffe, 1, 31}, {0xffffffff, 1, 32}, {0x00000001, 0, 1},
        {0x7fffffff, 0, 31}, {0xff00ff00, 0, 16}, {0x40000000, 0, 1},
    };

    for (size_t at = 0; at < sizeof cases / sizeof cases[0]; at++) {
        plain_mask mask = {cases[at].bits};
        CHECK_EQUAL(plain_mask_contiguous(mask), cases[at].contiguous);
        CHECK_EQUAL(plain_mask_ones(mask), cases[at].ones);
    }
}

static void test_checksum(void)
{
    /* RFC 1071, section 3: 0001 + f203 + f4f5 + f6f7 = 2ddf0, folded ddf2. */
    static const uint8_t octets[] = {0x00, 0x01, 0xf2, 0x03, 0xf4,
                                     0xf5, 0xf6, 0xf7, 0xff};
    static uint8_t many[20000];

    CHECK_EQUAL(plain_checksum(octets, 0), 0xffff);
    CHECK_EQUAL(plain_checksum(octets + 2, 1), 0x0dff); /* f200 */
    CHECK_EQUAL(plain_checksum(octets, 8), 0x220d);
    /* ddf2 + ff00 = 1dcf2, folded dcf3 */
    CHECK_EQUAL(plain_checksum(octets, 9), 0x230c);
    /* 0001 + f203 + f400 = 1e604, folded e605 */
    CHECK_EQUAL(plain_checksum(octets, 5), 0x19fa);

    /* Words of ffff add up to ffff, however many; one octet more is ff00. */
    memset(many, 0xff, sizeof many);
    CHECK_EQUAL(plain_checksum(many, sizeof many), 0x0000);
    CHECK_EQUAL(plain_checksum(many, sizeof many - 1), 0x00ff);
}

/* One header by hand: its octets, how many are lent, and what it says. */
typedef struct {
    uint8_t octets[PLAIN_HEADER_MOST];
    uint32_t header_length;
    uint32_t data;
    plain_fields fields;
} header_case;

static const header_case good_headers[] = {
    /* The shortest: 0001 0010, TP-ID 1, destination only; path 14. */
    {{0x20, 0x04, 0x12, 0x14}, 4, 0,
     {.tp_id = 1, .destination = {0, 0x14}}},
    /* 1010, 0100 0001: source and extended; one octet of data. */
    {{0x20, 0x0d, 0x1a, 0x41, 0x0a, 0x04, 0x09, 0x0e,
      0x0a, 0x0a, 0x0a, 0x04}, 12, 1,
     {.tp_id = 1, .source_present = 1, .extended = 1,
      .destination = {0, 0x0a04090e}, .source = {0, 0x0a0a0a04}}},
    /* 1011, 0110 0000: source, hop count, checksum; nine octets.
     * 2009 + 5b60 + 0e04 + 0200 = 8b6d */
    {{0x20, 0x09, 0x5b, 0x60, 0x0e, 0x04, 0x02, 0x74, 0x92}, 9, 0,
     {.tp_id = 5, .source_present = 1, .destination = {0, 0x0e},
      .source = {0, 0x04}, .hop_present = 1, .hop = 2,
      .checksum_present = 1}},
    /* 1011, 1000 0011, 0011 0000: path, basic QOS 1001 00 10, expanded QOS,
     * intermediate delivery, checksum; 13 octets and 100 of data.
     * 2071 + 6b83 + 300a + ffff + ff92 + b800 = 3738f, folded 7392 */
    {{0x20, 0x71, 0x6b, 0x83, 0x30, 0x0a, 0xff, 0xff, 0xff, 0x92, 0xb8,
      0x8c, 0x6d}, 13, 100,
     {.tp_id = 6, .extended = 1, .destination = {0, 0x0affffff},
      .basic_qos_present = 1, .precedence = 9, .program = 2,
      .expanded_present = 1, .expanded = 0xb8, .checksum_present = 1,
      .intermediate = 1}},
    /* 1011, 0101 1000: source, binary timestamp, checksum; 12 octets.
     * 200c + 8b58 + 0204 + dead + beef = 24b04, folded 4b06 */
    {{0x20, 0x0c, 0x8b, 0x58, 0x02, 0x04, 0xde, 0xad, 0xbe, 0xef,
      0xb4, 0xf9}, 12, 0,
     {.tp_id = 8, .source_present = 1, .destination = {0, 0x02},
      .source = {0, 0x04}, .stamp_format = 3, .time = 0xdeadbeef,
      .checksum_present = 1}},
    /* 1010, 0000 1000: implicit timestamp. */
    {{0x20, 0x08, 0x6a, 0x08, 0xff, 0xaa, 0xbb, 0xcc}, 8, 0,
     {.tp_id = 6, .destination = {0, 0xff}, .stamp_format = 1,
      .time = 0xaabbcc}},
    /* 1010, 0001 0000: the shortest explicit timestamp; a P-field with
     * extension flag and time code 7, carried unjudged. */
    {{0x20, 0x07, 0x0a, 0x10, 0x02, 0xf0, 0x5c}, 7, 0,
     {.tp_id = 0, .destination = {0, 0x02}, .stamp_format = 2,
      .p_field = 0xf0, .time = 0x5c}},
    /* 1011, 0010 0000: a sum of ffff (2008 + 5b20 + 84d7) is due 0000. */
    {{0x20, 0x08, 0x5b, 0x20, 0x84, 0xd7, 0x00, 0x00}, 8, 0,
     {.tp_id = 5, .destination = {0, 0x84}, .hop_present = 1, .hop = 0xd7,
      .checksum_present = 1}},
    /* 1011, 1111 0010, 0111 0000: the longest, with the most data.
     * 3fff + 6bf2 + 7020 + 010d + b800 + 0120 + 010d + b800 + 02ff + ff0f +
     * 0102 + 0304 + 0506 + 072e = 3a193, folded a196 */
    {{0x3f, 0xff, 0x6b, 0xf2, 0x70,
      0x20, 0x01, 0x0d, 0xb8, 0, 0, 0, 0, 0, 0, 0, 0, 0, 0, 0, 0x01,
      0x20, 0x01, 0x0d, 0xb8, 0, 0, 0, 0, 0, 0, 0, 0, 0, 0, 0, 0x02,
      0xff, 0xff, 0x0f, 1, 2, 3, 4, 5, 6, 7, 0x2e, 0x5e, 0x69}, 50, 8141,
     {.tp_id = 6, .source_present = 1, .ipv6 = 1,
      .destination = {0x20010db800000000, 1},
      .source = {0x20010db800000000, 2}, .basic_qos_present = 1,
      .precedence = 15, .routing = 3, .program = 3, .hop_present = 1,
      .hop = 255, .stamp_format = 2, .p_field = 0x0f,
      .time = 0x01020304050607, .expanded_present = 1, .expanded = 0x2e,
      .checksum_present = 1, .intermediate = 1}},
};

/* The structure has no gaps: its numbers of 32 bits come in fours. */
static uint64_t fields_equal(const plain_fields *one, const plain_fields *two)
{
    return memcmp(one, two, sizeof *one) == 0;
}

static void check_good_header(const header_case *due)
{
    static uint8_t datagram[PLAIN_LENGTH_MOST];
    uint8_t output[PLAIN_HEADER_MOST];
    uint32_t built = 0;
    plain_header header;

    memset(datagram, UNTOUCHED, sizeof datagram);
    memcpy(datagram, due->octets, due->header_length);
    CHECK_EQUAL(plain_header_read(datagram, due->header_length + due->data,
                                  &header), PLAIN_GOOD);
    CHECK_EQUAL(header.length, due->header_length + due->data);
    CHECK_EQUAL(header.header_length, due->header_length);
    CHECK_EQUAL(fields_equal(&header.fields, &due->fields), 1);

    memset(output, UNTOUCHED, sizeof output);
    CHECK_EQUAL(plain_header_build(&due->fields, due->data, output,
                                   sizeof output, &built), PLAIN_GOOD);
    CHECK_EQUAL(built, due->header_length);
    CHECK_EQUAL(memcmp(output, due->octets, built), 0);
    for (size_t at = built; at < sizeof output; at++)
        CHECK_EQUAL(output[at], UNTOUCHED);
}

static void test_good_headers(void)
{
    size_t count = sizeof good_headers / sizeof good_headers[0];

    for (size_t at = 0; at < count; at++)
        check_good_header(&good_headers[at]);
}

typedef struct {
    plain_refusal refusal;
    size_t count;
    uint8_t octets[40];
} refusal_case;

static const refusal_case read_refusals[] = {
    {PLAIN_SHORT, 0, {0}},
    {PLAIN_SHORT, 2, {0x20, 0x04}},
    {PLAIN_SHORT, 2, {0x00, 0x04}}, /* before the version */
    {PLAIN_BAD_VERSION, 3, {0x00, 0x04, 0x1a}}, /* before the second 1 */
    {PLAIN_BAD_VERSION, 4, {0x40, 0x04, 0x12, 0x14}},
    {PLAIN_BAD_VERSION, 4, {0xe0, 0x04, 0x12, 0x14}},
    {PLAIN_SHORT, 3, {0x20, 0x04, 0x1e}}, /* before bit 21 */
    {PLAIN_SHORT, 4, {0x20, 0x04, 0x1a, 0x84}}, /* before bit 29 */
    {PLAIN_BAD_FORM, 4, {0x20, 0x04, 0x16, 0x14}}, /* bit 21 */
    {PLAIN_BAD_FORM, 4, {0x20, 0x04, 0x10, 0x14}}, /* bit 22 */
    {PLAIN_BAD_FORM, 5, {0x20, 0x05, 0x1a, 0x04, 0x14}}, /* bit 29 */
    {PLAIN_BAD_FORM, 5, {0x20, 0x05, 0x1a, 0x80, 0x80}}, /* bit 32 */
    {PLAIN_BAD_FORM, 6, {0x20, 0x06, 0x1a, 0x80, 0x08, 0x14}},
    {PLAIN_BAD_FORM, 6, {0x20, 0x06, 0x1a, 0x80, 0x04, 0x14}},
    {PLAIN_BAD_FORM, 6, {0x20, 0x06, 0x1a, 0x80, 0x02, 0x14}},
    {PLAIN_BAD_FORM, 6, {0x20, 0x06, 0x1a, 0x80, 0x01, 0x14}},
    {PLAIN_BAD_FORM, 37, {0x20, 0x25, 0x1a, 0xc1, 0x40}}, /* and extended */
    {PLAIN_BAD_FORM, 37, {0x20, 0x25, 0x1a, 0x80, 0x40}}, /* no source */
    {PLAIN_BAD_FORM, 4, {0x20, 0x09, 0x16, 0x14}}, /* before the length */
    {PLAIN_BAD_FORM, 4, {0x20, 0x02, 0x1a, 0x04}}, /* beyond the length */
    {PLAIN_BAD_LENGTH, 4, {0x20, 0x05, 0x12, 0x14}},
    {PLAIN_BAD_LENGTH, 4, {0x20, 0x03, 0x12, 0x14}},
    {PLAIN_BAD_LENGTH, 5, {0x20, 0x00, 0x12, 0x14, 0x00}},
    {PLAIN_BAD_LENGTH, 36, {0x20, 0x24, 0x1a, 0xc0, 0x40}}, /* IPv6 cut */
    {PLAIN_BAD_LENGTH, 5, {0x20, 0x05, 0x1a, 0x10, 0x14}}, /* no P-field */
    {PLAIN_BAD_LENGTH, 7, {0x20, 0x05, 0x1a, 0x10, 0x14, 0x00, 0x00}},
    {PLAIN_BAD_LENGTH, 12, {0x20, 0x0c, 0x1a, 0x10, 0x14, 0x0f}},
    {PLAIN_BAD_LENGTH, 9, {0x20, 0x08, 0x5b, 0x60, 0x0e, 0x04, 0x02,
                           0x74, 0x93}}, /* before the checksum */
    {PLAIN_BAD_CHECKSUM, 9, {0x20, 0x09, 0x5b, 0x60, 0x0e, 0x04, 0x02,
                             0x74, 0x93}},
    {PLAIN_BAD_CHECKSUM, 9, {0x20, 0x09, 0x5b, 0x60, 0x0e, 0x04, 0x03,
                             0x74, 0x92}},
    {PLAIN_BAD_CHECKSUM, 8, {0x20, 0x08, 0x5b, 0x20, 0x84, 0xd7,
                             0xff, 0xff}}, /* 0000 is due */
};

static void test_read_refusals(void)
{
    size_t count = sizeof read_refusals / sizeof read_refusals[0];

    for (size_t at = 0; at < count; at++) {
        plain_header header;
        CHECK_EQUAL(plain_header_read(read_refusals[at].octets,
                                      read_refusals[at].count, &header),
                    read_refusals[at].refusal);
    }
}

/* The octets end where their array ends, so that a sanitizer sees a P-field
 * or a control octet that is looked at without being there. */
static void test_nothing_read_beyond(void)
{
    static const uint8_t before_p_field[] = {0x20, 0x05, 0x1a, 0x10, 0x14};
    static const uint8_t before_octet_5[] = {0x20, 0x04, 0x1a, 0x80};
    static const uint8_t before_octet_4[] = {0x20, 0x04, 0x1a};
    plain_header header;

    CHECK_EQUAL(plain_header_read(before_p_field, sizeof before_p_field,
                                  &header), PLAIN_BAD_LENGTH);
    CHECK_EQUAL(plain_header_read(before_octet_5, sizeof before_octet_5,
                                  &header), PLAIN_SHORT);
    CHECK_EQUAL(plain_header_read(before_octet_4, sizeof before_octet_4,
                                  &header), PLAIN_SHORT);
}

/* A control field longer than it need be is read, and octets beyond the
 * length field are not looked at. */
static void test_long_control_field(void)
{
    static const uint8_t octets[] = {0x20, 0x06, 0x1a, 0x80, 0x00, 0x14, 0xff};
    uint8_t output[sizeof octets] = {0, 0, 0, 0, 0, 0, UNTOUCHED};
    plain_header header;

    CHECK_EQUAL(plain_header_read(octets, sizeof octets, &header), PLAIN_GOOD);
    CHECK_EQUAL(header.length, 6);
    CHECK_EQUAL(header.header_length, 6);
    plain_header_send_on(&header, octets, output);
    CHECK_EQUAL(memcmp(output, octets, 6), 0);
    CHECK_EQUAL(output[6], UNTOUCHED);
}

static void test_send_on(void)
{
    /* 2009 + 5b60 + 0e04 + 0100 = 8a6d; with hop count 0, 896d */
    static const uint8_t two[] = {0x20, 0x09, 0x5b, 0x60, 0x0e, 0x04, 0x02,
                                  0x74, 0x92};
    static const uint8_t one[] = {0x20, 0x09, 0x5b, 0x60, 0x0e, 0x04, 0x01,
                                  0x75, 0x92};
    static const uint8_t none[] = {0x20, 0x09, 0x5b, 0x60, 0x0e, 0x04, 0x00,
                                   0x76, 0x92};
    uint8_t output[sizeof two];
    plain_header header;

    CHECK_EQUAL(plain_header_read(two, sizeof two, &header), PLAIN_GOOD);
    plain_header_send_on(&header, two, output);
    CHECK_EQUAL(memcmp(output, one, sizeof one), 0);
    CHECK_EQUAL(plain_header_read(one, sizeof one, &header), PLAIN_GOOD);
    plain_header_send_on(&header, one, output);
    CHECK_EQUAL(memcmp(output, none, sizeof none), 0);
    CHECK_EQUAL(plain_header_read(none, sizeof none, &header), PLAIN_GOOD);
    plain_header_send_on(&header, none, output);
    CHECK_EQUAL(memcmp(output, none, sizeof none), 0);
}

static void check_build_refused(const plain_fields *fields, uint32_t data,
                                size_t room, plain_refusal due)
{
    uint8_t output[PLAIN_HEADER_MOST];
    uint32_t built = 77;

    memset(output, UNTOUCHED, sizeof output);
    CHECK_EQUAL(plain_header_build(fields, data, output, room, &built), due);
    CHECK_EQUAL(built, 77);
    for (size_t at = 0; at < sizeof output; at++)
        CHECK_EQUAL(output[at], UNTOUCHED);
}

static const plain_fields out_of_range[] = {
    {.tp_id = 16},
    {.destination = {0, 0x100}},
    {.destination = {1, 0}},
    {.extended = 1, .destination = {0, 0x100000000}},
    {.extended = 1, .destination = {1, 0}},
    {.extended = 2},
    {.source_present = 1, .source = {0, 0x100}},
    {.source = {0, 1}}, /* absent, and yet a value */
    {.source = {1, 0}},
    {.source_present = 2},
    {.source_present = 1, .ipv6 = 2},
    {.ipv6 = 1}, /* no source */
    {.ipv6 = 1, .source_present = 1, .extended = 1},
    {.basic_qos_present = 1, .precedence = 16},
    {.basic_qos_present = 1, .routing = 4},
    {.basic_qos_present = 1, .program = 4},
    {.basic_qos_present = 2},
    {.precedence = 1},
    {.routing = 1},
    {.program = 1},
    {.hop_present = 1, .hop = 256},
    {.hop_present = 2},
    {.hop = 1},
    {.stamp_format = 4},
    {.stamp_format = 4294967295},
    {.time = 1},
    {.p_field = 1},
    {.stamp_format = 1, .time = 0x1000000},
    {.stamp_format = 1, .p_field = 1},
    {.stamp_format = 2, .p_field = 0x00, .time = 0x100},
    {.stamp_format = 2, .p_field = 0x0f, .time = 0x100000000000000},
    {.stamp_format = 2, .p_field = 0x100},
    {.stamp_format = 3, .time = 0x100000000},
    {.stamp_format = 3, .p_field = 1},
    {.expanded_present = 1, .expanded = 256},
    {.expanded_present = 2},
    {.expanded = 1},
    {.checksum_present = 2},
    {.intermediate = 2},
};

static void test_build_refusals(void)
{
    static const plain_fields good = {.tp_id = 1};
    size_t count = sizeof out_of_range / sizeof out_of_range[0];

    check_build_refused(&good, 0, 49, PLAIN_NO_ROOM);
    check_build_refused(&out_of_range[0], 8142, 49, PLAIN_NO_ROOM);
    check_build_refused(&good, 8142, 50, PLAIN_TOO_MUCH_DATA);
    check_build_refused(&good, 4294967295, 50, PLAIN_TOO_MUCH_DATA);
    for (size_t at = 0; at < count; at++)
        check_build_refused(&out_of_range[at], 8142, 50,
                            PLAIN_FIELD_OUT_OF_RANGE);
}

/* A number of so many bits out of a fixed sequence. */
static uint64_t draw(uint32_t bits)
{
    static uint64_t state = 713;

    state = state * 6364136223846793005u + 1442695040888963407u;
    return state >> (64 - bits);
}

static plain_fields draw_fields(void)
{
    plain_fields fields = {.tp_id = (uint32_t)draw(4)};
    uint32_t address_bits;
    uint32_t time_octets;

    fields.ipv6 = (uint32_t)draw(1);
    fields.extended = fields.ipv6 ? 0 : (uint32_t)draw(1);
    fields.source_present = fields.ipv6 ? 1 : (uint32_t)draw(1);
    address_bits = fields.ipv6 ? 64 : fields.extended ? 32 : 8;
    fields.destination.high = fields.ipv6 ? draw(64) : 0;
    fields.destination.low = draw(address_bits);
    fields.source.high = fields.ipv6 ? draw(64) : 0;
    fields.source.low = fields.source_present ? draw(address_bits) : 0;
    fields.basic_qos_present = (uint32_t)draw(1);
    fields.precedence = fields.basic_qos_present ? (uint32_t)draw(4) : 0;
    fields.routing = fields.basic_qos_present ? (uint32_t)draw(2) : 0;
    fields.program = fields.basic_qos_present ? (uint32_t)draw(2) : 0;
    fields.hop_present = (uint32_t)draw(1);
    fields.hop = fields.hop_present ? (uint32_t)draw(8) : 0;
    fields.stamp_format = (uint32_t)draw(2);
    fields.p_field = fields.stamp_format == 2 ? (uint32_t)draw(8) : 0;
    time_octets = plain_stamp_octets(fields.stamp_format, fields.p_field) -
                  (fields.stamp_format == 2);
    fields.time = time_octets > 0 ? draw(8 * time_octets) : 0;
    fields.expanded_present = (uint32_t)draw(1);
    fields.expanded = fields.expanded_present ? (uint32_t)draw(8) : 0;
    fields.checksum_present = (uint32_t)draw(1);
    fields.intermediate = (uint32_t)draw(1);
    return fields;
}

/* Reading what was built gives the same fields. */
static void test_build_then_read(void)
{
    static uint8_t datagram[PLAIN_LENGTH_MOST];

    for (unsigned round = 0; round < 20000; round++) {
        plain_fields fields = draw_fields();
        uint32_t data = (uint32_t)draw(32) % (PLAIN_DATA_MOST + 1);
        uint32_t built = 0;
        plain_header header;

        CHECK_EQUAL(plain_header_build(&fields, data, datagram,
                                       sizeof datagram, &built), PLAIN_GOOD);
        CHECK_EQUAL(plain_header_read(datagram, sizeof datagram, &header),
                    PLAIN_GOOD);
        CHECK_EQUAL(header.header_length, built);
        CHECK_EQUAL(header.length, built + data);
        CHECK_EQUAL(fields_equal(&header.fields, &fields), 1);
    }
}

/* Building what was read gives the same octets where the control field was
 * shortest; where it was not, the header built is the shorter one. */
static void test_read_then_build(void)
{
    unsigned same = 0;

    for (unsigned round = 0; round < 200000; round++) {
        uint8_t octets[64], output[PLAIN_HEADER_MOST];
        uint32_t built = 0;
        plain_header header;

        for (size_t at = 0; at < sizeof octets; at++)
            octets[at] = (uint8_t)draw(8);
        octets[0] = 0x20;
        octets[1] &= 0x3f;
        octets[2] = (uint8_t)(octets[2] & 0xf8) | 0x02;
        octets[3] &= 0xfb;
        octets[4] &= 0x70;
        if (plain_header_read(octets, sizeof octets, &header) != PLAIN_GOOD)
            continue;
        CHECK_EQUAL(plain_header_build(&header.fields,
                                       header.length - header.header_length,
                                       output, sizeof output, &built),
                    PLAIN_GOOD);
        if (built != header.header_length) {
            CHECK_EQUAL(built < header.header_length, 1);
            continue;
        }
        CHECK_EQUAL(memcmp(output, octets, built), 0);
        same++;
    }
    CHECK_EQUAL(same > 1000, 1);
}

int main(void)
{
    test_marked_classes();
    test_classes_at_the_edges();
    test_paths();
    test_masks();
    test_checksum();
    test_good_headers();
    test_read_refusals();
    test_nothing_read_beyond();
    test_long_control_field();
    test_send_on();
    test_build_refusals();
    test_build_then_read();
    test_read_then_build();
    return checks_report("test_plain");
}
