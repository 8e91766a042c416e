/* The output of the program: text gathered in memory, written in large
 * pieces. */
#ifndef PLAIN_TEXT_H
#define PLAIN_TEXT_H

#include <stdbool.h>
#include <stddef.h>
#include <stdint.h>
#include <stdio.h>

enum {
    PLAIN_TEXT_ROOM = 524288,
    PLAIN_TEXT_LINE = 262144 /* over the longest call with its answer */
};

typedef struct {
    FILE *file;
    bool failed; /* the file did not take what was written */
    size_t used;
    char room[PLAIN_TEXT_ROOM];
} plain_text;

void plain_text_put(plain_text *text, const char *characters, size_t count);
void plain_text_string(plain_text *text, const char *string);
void plain_text_decimal(plain_text *text, uint32_t number);
void plain_text_octets(plain_text *text, const uint8_t *octets, size_t count);

/* As many hexadecimal digits as said, the lowest ones of the number. */
void plain_text_digits(plain_text *text, uint64_t number, uint32_t digits);

/* Ends a line; what was put since the line before can not be taken back. */
void plain_text_end_line(plain_text *text);

void plain_text_flush(plain_text *text);

#endif
