/*
 * line.h: a line of the trace, written to standard output: the word of a call,
 * and its arguments in the forms that the table of calls has for them.
 */
#ifndef LINE_H
#define LINE_H

#include <stddef.h>
#include <stdint.h>

#include "shared/calls.h"

/* A call of numbers alone. */
void line_numbers(enum call call, const uint32_t *numbers);

/* A call of one number. */
void line_number(enum call call, uint32_t number);

/* A mission's call of one number. */
void line_asked(enum call call, uint32_t number, uint32_t mission);

/* A list of numbers. */
struct line_list {
    const uint32_t *numbers;
    size_t count;
};

/* A call of a number, lists, octets and another number. */
void line_lists(enum call call, uint32_t first, const struct line_list *lists,
                const uint8_t *octets, size_t count, uint32_t last);

/* A call of numbers and octets; numbers may stand behind these too. */
void line_octets(enum call call, const uint32_t *numbers,
                 const uint8_t *octets, size_t count);

#endif
