/*
 * The trace form, on its text side: lines of the input, the words of a line,
 * and the words as numbers, addresses and octets.
 */
#ifndef PLAIN_TRACE_H
#define PLAIN_TRACE_H

#include <stdbool.h>
#include <stddef.h>
#include <stdint.h>
#include <stdio.h>

#include "plain_header.h"

enum {
    PLAIN_LINE_MOST = 100000, /* characters, the line's end not counted */
    PLAIN_OCTETS_MOST = PLAIN_LINE_MOST / 2,
    PLAIN_NUMBERS_MOST = PLAIN_LINE_MOST / 2, /* each with its comma */
    PLAIN_WORDS_MOST = 17 /* of the longest call, build */
};

/* The input, read in large pieces. */
typedef struct {
    FILE *file;
    size_t at;
    size_t end;
    char piece[65536];
} plain_input;

/* A line without its end. Of one that is too long, the first part; the rest
 * is still to be had by plain_input_rest. */
typedef struct {
    bool too_long;
    size_t length;
    char text[PLAIN_LINE_MOST];
} plain_line;

typedef struct {
    const char *text;
    size_t length;
} plain_word;

typedef enum { PLAIN_NOTHING, PLAIN_CALL, PLAIN_NOT_UNDERSTOOD } plain_kind;

/* The words of a line up to its answer or comment, which are left out. */
typedef struct {
    size_t count;
    plain_word words[PLAIN_WORDS_MOST];
} plain_call;

/* False at the end of the input. */
bool plain_input_line(plain_input *input, plain_line *line);

/* The next part of a line that was too long; false after its end. */
bool plain_input_rest(plain_input *input, plain_line *line);

plain_kind plain_line_split(const plain_line *line, plain_call *call);

bool plain_word_is(plain_word word, const char *text);

/* Each answers false where the word is not of that form. */
bool plain_word_number(plain_word word, uint32_t most, uint32_t *number);
bool plain_word_bits(plain_word word, uint32_t *bits); /* 8 digits */
bool plain_word_wide(plain_word word, plain_wide *number); /* 1 to 32 digits */

/* Octets of a line, set down so that they end where their array ends: a
 * sanitizer then sees every step beyond what was lent. */
typedef struct {
    const uint8_t *start;
    size_t count;
    uint8_t space[PLAIN_OCTETS_MOST];
} plain_octets;

bool plain_word_octets(plain_word word, plain_octets *octets);

/* A list of numbers, none over the most. */
typedef struct {
    size_t count;
    uint32_t numbers[PLAIN_NUMBERS_MOST];
} plain_numbers;

bool plain_word_numbers(plain_word word, uint32_t most, plain_numbers *list);

#endif
