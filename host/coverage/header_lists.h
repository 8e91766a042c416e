/*
 * header_lists.h: what coverage counts. Each row is a name and a condition over
 * the numbers of one line; the line counts for the row where it holds.
 */
#ifndef COVERAGE_LISTS_H
#define COVERAGE_LISTS_H

#include <stdbool.h>
#include <stddef.h>
#include <stdint.h>

/* The fields of a read's answer or of a build's call. */
struct fields {
    uint64_t destination_high, destination_low, source_high, source_low;
    bool has_source, has_qos, has_hop_count, has_expanded;
    uint32_t tp_id, extended, ipv6, precedence, routing, program, hop_count;
    uint32_t stamp_format, expanded, has_checksum, intermediate;
    uint64_t p_field; /* the timestamp's first octet, whatever its format */
};

/* The octets that a read was lent; the first five count as 0 where absent. */
struct lent {
    const uint8_t *octets;
    size_t count;
};

/* Bits are numbered as in 003, the first one 0; an absent control octet counts
 * as zeros. */
static inline unsigned bit(const struct lent *lent, unsigned number)
{
    return lent->octets[number / 8] >> (7 - number % 8) & 1;
}

static inline unsigned control_octets(const struct lent *lent)
{
    return 1 + bit(lent, 20) + (bit(lent, 20) & bit(lent, 24));
}

static inline unsigned control_bit(const struct lent *lent, unsigned number)
{
    return number / 8 - 2 < control_octets(lent) ? bit(lent, number) : 0;
}

static inline unsigned shortest_control(const struct fields *fields)
{
    if (fields->ipv6 || fields->has_expanded || fields->intermediate)
        return 3;
    return fields->has_source || fields->extended || fields->has_qos ||
                   fields->has_hop_count || fields->stamp_format
               ? 2
               : 1;
}

static inline bool over_octets(const struct fields *fields, uint64_t high,
                               uint64_t low)
{
    if (fields->ipv6)
        return false;
    return high > 0 || low > (fields->extended ? 0xffffffffu : 0xffu);
}

#define READ_LIST(ROW)                                                        \
    ROW("control field of 1 octet", control_octets(lent) == 1)                \
    ROW("control field of 2 octets", control_octets(lent) == 2)               \
    ROW("control field of 3 octets", control_octets(lent) == 3)               \
    ROW("control field longer than it need be",                               \
        control_octets(lent) > shortest_control(&fields))                     \
    ROW("extended end system", fields.extended && fields.has_source)          \
    ROW("extended path", fields.extended && !fields.has_source)               \
    ROW("basic end system",                                                   \
        !fields.extended && !fields.ipv6 && fields.has_source)                \
    ROW("basic path", !fields.extended && !fields.has_source)                 \
    ROW("IPv6", fields.ipv6)                                                  \
    ROW("basic QOS", fields.has_qos)                                          \
    ROW("routing requirements 1", fields.routing == 1)                        \
    ROW("routing requirements 2", fields.routing == 2)                        \
    ROW("routing requirements 3", fields.routing == 3)                        \
    ROW("program specific 1", fields.program == 1)                            \
    ROW("program specific 2", fields.program == 2)                            \
    ROW("program specific 3", fields.program == 3)                            \
    ROW("hop count", fields.has_hop_count)                                    \
    ROW("hop count 0", fields.has_hop_count && fields.hop_count == 0)         \
    ROW("hop count 255", fields.hop_count == 255)                             \
    ROW("no timestamp", fields.stamp_format == 0)                             \
    ROW("timestamp, implicit P-field", fields.stamp_format == 1)              \
    ROW("timestamp, explicit P-field", fields.stamp_format == 2)              \
    ROW("timestamp, binary", fields.stamp_format == 3)                        \
    ROW("expanded QOS", fields.has_expanded)                                  \
    ROW("checksum", fields.has_checksum)                                      \
    ROW("checksum 0000", fields.has_checksum &&                               \
                             lent->octets[header - 2] == 0 &&                 \
                             lent->octets[header - 1] == 0)                   \
    ROW("checksum in a header of odd length",                                 \
        fields.has_checksum && header % 2 == 1)                               \
    ROW("intermediate delivery", fields.intermediate)                         \
    ROW("header of odd length", header % 2 == 1)                              \
    ROW("header of 4 octets", header == 4)                                    \
    ROW("header of 50 octets", header == 50)                                  \
    ROW("no data", length == header)                                          \
    ROW("data over 8,141 octets", length - header > 8141)                     \
    ROW("length 8,191", length == 8191)                                       \
    ROW("octets beyond the length", lent->count > length)

#define REFUSED_LIST(ROW)                                                     \
    ROW("1, no octet", refusal == 1 && lent.count == 0)                       \
    ROW("1, one or two octets",                                               \
        refusal == 1 && (lent.count == 1 || lent.count == 2))                 \
    ROW("1, control field cut after 3 octets",                                \
        refusal == 1 && lent.count == 3)                                      \
    ROW("1, control field cut after 4 octets",                                \
        refusal == 1 && lent.count == 4)                                      \
    ROW("4, bit 21", refusal == 4 && bit(&lent, 21) == 1)                     \
    ROW("4, bit 22", refusal == 4 && bit(&lent, 22) == 0)                     \
    ROW("4, bit 29", refusal == 4 && control_bit(&lent, 29) == 1)             \
    ROW("4, bit 32", refusal == 4 && control_bit(&lent, 32) == 1)             \
    ROW("4, bit 32 with five octets lent",                                    \
        refusal == 4 && control_bit(&lent, 32) == 1 && lent.count == 5)       \
    ROW("4, bit 36", refusal == 4 && control_bit(&lent, 36) == 1)             \
    ROW("4, bit 37", refusal == 4 && control_bit(&lent, 37) == 1)             \
    ROW("4, bit 38", refusal == 4 && control_bit(&lent, 38) == 1)             \
    ROW("4, bit 39", refusal == 4 && control_bit(&lent, 39) == 1)             \
    ROW("4, IPv6 with extended", refusal == 4 &&                              \
                                     control_bit(&lent, 33) == 1 &&           \
                                     control_bit(&lent, 31) == 1)             \
    ROW("4, IPv6 without source", refusal == 4 &&                             \
                                      control_bit(&lent, 33) == 1 &&          \
                                      control_bit(&lent, 25) == 0)

#define BUILD_LIST(ROW)                                                       \
    ROW("0, room 50", refusal == 0 && room == 50)                             \
    ROW("0, data 8,141", refusal == 0 && data == 8141)                        \
    ROW("0, header of odd length", refusal == 0 && header % 2 == 1)           \
    ROW("0, header of 4 octets", refusal == 0 && header == 4)                 \
    ROW("0, header of 50 octets", refusal == 0 && header == 50)               \
    ROW("17, room 49", refusal == 17 && room == 49)                           \
    ROW("17, no room", refusal == 17 && room == 0)                            \
    ROW("17 before 19", refusal == 17 && fields.tp_id > 15)                   \
    ROW("17 before 20", refusal == 17 && data > 8141)                         \
    ROW("19, TP-ID", refusal == 19 && fields.tp_id > 15)                      \
    ROW("19, destination over its octets",                                    \
        refusal == 19 && over_octets(&fields, fields.destination_high,        \
                                     fields.destination_low))                 \
    ROW("19, source over its octets",                                         \
        refusal == 19 && over_octets(&fields, fields.source_high,             \
                                     fields.source_low))                      \
    ROW("19, extended", refusal == 19 && fields.extended > 1)                 \
    ROW("19, IPv6", refusal == 19 && fields.ipv6 > 1)                         \
    ROW("19, IPv6 with extended",                                             \
        refusal == 19 && fields.ipv6 == 1 && fields.extended == 1)            \
    ROW("19, IPv6 without source",                                            \
        refusal == 19 && fields.ipv6 == 1 && !fields.has_source)              \
    ROW("19, precedence", refusal == 19 && fields.precedence > 15)            \
    ROW("19, routing requirements", refusal == 19 && fields.routing > 3)      \
    ROW("19, program specific", refusal == 19 && fields.program > 3)          \
    ROW("19, hop count", refusal == 19 && fields.hop_count > 255)             \
    ROW("19, timestamp format", refusal == 19 && fields.stamp_format > 3)     \
    ROW("19, expanded QOS", refusal == 19 && fields.expanded > 255)           \
    ROW("19, checksum", refusal == 19 && fields.has_checksum > 1)             \
    ROW("19, intermediate", refusal == 19 && fields.intermediate > 1)         \
    ROW("19 before 20", refusal == 19 && data > 8141)                         \
    ROW("20, data 8,142", refusal == 20 && data == 8142)                      \
    ROW("20, greatest data", refusal == 20 && data == 0xffffffff)

#endif
