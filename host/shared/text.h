/*
 * text.h: a line of text that grows as it is written. An answer is gathered
 * here first, since a call may turn out not to be understood half way.
 */
#ifndef TEXT_H
#define TEXT_H

#include <stddef.h>
#include <stdint.h>

struct text {
    char *start; /* null at first */
    size_t used;
    size_t room;
};

void text_clear(struct text *text);
void text_add(struct text *text, const char *characters, size_t count);
void text_string(struct text *text, const char *string);
void text_number(struct text *text, uint64_t number);
/* A blank and the number. */
void text_next_number(struct text *text, uint64_t number);
/* The lowest digits of the number, in hexadecimal, as many as said. */
void text_digits(struct text *text, uint64_t number, unsigned digits);
/* `-` for none. */
void text_octets(struct text *text, const uint8_t *octets, size_t count);

#endif
