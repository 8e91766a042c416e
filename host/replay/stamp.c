/*
 * stamp.c: how long a timestamp is (003, 3.2.3.8). The awkward case is format
 * 2, whose P-field says how many octets follow it.
 */
#include "stamp.h"

#include "harpjuniper.h"

unsigned stamp_time_octets(uint32_t format, uint32_t p_field)
{
    switch (format) {
    case HJ_STAMP_IMPLICIT:
        return 3;
    case HJ_STAMP_EXPLICIT:
        return 1 + p_field / 4 % 4 + p_field % 4;
    case HJ_STAMP_BINARY:
        return 4;
    default:
        return 0;
    }
}

void stamp_add(struct text *answer, uint32_t format, uint32_t p_field,
               uint64_t time)
{
    unsigned count = stamp_time_octets(format, p_field);

    if (count == 0)
        text_string(answer, "-");
    if (format == HJ_STAMP_EXPLICIT)
        text_digits(answer, p_field, 2);
    text_digits(answer, time, 2 * count);
}
