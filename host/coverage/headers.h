/*
 * headers.h: what was reached of the words that are lent no state: read, build,
 * class, path and checksum, and by messages.c read_echo and build_echo.
 */
#ifndef HEADERS_H
#define HEADERS_H

#include "shared/answered.h"

/* Counts a line; false where it has no good answer, or is another call's. */
answered_line count_header_line;

/* How many lines there were of each word. */
struct header_calls {
    uint64_t read, build, class, path, checksum;
};

struct header_calls header_calls(void);

void say_headers(void);

#endif
