/*
 * trace.h: the trace form as text. A line is a call: its words stand apart by
 * blanks, `#` begins a comment, and a word that is just `=` begins an answer
 * given earlier, which is passed over. A word is a piece of the line, not a
 * copy, so that the line can still be answered as it came.
 */
#ifndef TRACE_H
#define TRACE_H

#include <stdbool.h>
#include <stddef.h>
#include <stdint.h>

#include "calls.h"

/* Characters of a line that is understood, its end not counted. */
#define TRACE_MOST_LINE 100000
/* Octets that a word of such a line can stand for, and numbers of a list. */
#define TRACE_MOST_OCTETS (TRACE_MOST_LINE / 2)
#define TRACE_MOST_LISTED (TRACE_MOST_LINE / 2)
/* Datagrams of a batch that is not refused. */
#define TRACE_MOST_ITEMS 64
/* Of the longest answer, which is a batch's: its number, and for each item `/`,
 * five words and `!`. */
#define TRACE_MOST_WORDS (1 + 7 * TRACE_MOST_ITEMS)
/* Missions are numbered from 0. */
#define TRACE_MISSIONS 2
/* Records of a fresh list, and the most that a trace may give it. */
#define TRACE_RECORDS 512
#define TRACE_MOST_RECORDS 1024

struct trace_word {
    const char *text;
    size_t length;
};

struct trace_call {
    size_t count;
    struct trace_word words[TRACE_MOST_WORDS];
};

enum trace_kind {
    TRACE_NOTHING, /* a blank line or a comment */
    TRACE_CALL,
    TRACE_UNKNOWN /* too long, too many words, or an answer alone */
};

enum trace_kind trace_cut(const char *line, size_t length,
                          struct trace_call *call);

bool trace_is(struct trace_word word, const char *text);

/* The call or line that has this word; CALLS where none has. */
enum call trace_call_of(struct trace_word word);

/* What a word stands for; false where it is not of that form. */
bool trace_number(struct trace_word word, uint64_t most, uint64_t *number);
bool trace_number_32(struct trace_word word, uint32_t *number);
bool trace_address(struct trace_word word, uint32_t *address);
bool trace_mission(struct trace_word word, uint32_t *mission);
/* Several words as numbers, each by its letter (calls.def): d, x or m. Any
 * other letter ends them. */
bool trace_numbers(const struct trace_word *words, const char *forms,
                   uint32_t *numbers);
/* A hexadecimal number of 1 to 32 digits, as its upper and lower 64 bits. */
bool trace_wide(struct trace_word word, uint64_t *high, uint64_t *low);
/* Octets, `-` for none; never more than half as many as the word is long. */
bool trace_octets(struct trace_word word, uint8_t *octets, size_t *count);
/* Numbers with commas between them, none over the most, `-` for no number. */
bool trace_list(struct trace_word word, uint32_t most, uint32_t *numbers,
                size_t *count);
/* Takes the first number's word off what is left of a list that has one, and
 * the comma with it; false where nothing is left. */
bool trace_next(struct trace_word *list, struct trace_word *number);

#endif
