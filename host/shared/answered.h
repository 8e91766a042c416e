/*
 * answered.h: the lines of an answered trace, each a call and its answer. The
 * answer of `new`, `records` and `record` is nothing, and has no words. Every
 * word that docs/TRACE.md has for a call and its answer is there in a line that
 * is handed on.
 */
#ifndef ANSWERED_H
#define ANSWERED_H

#include <stdbool.h>
#include <stddef.h>
#include <stdint.h>

#include "trace.h"

/* Whether the line is known. The call is CALLS where no call has its word. */
typedef bool answered_line(enum call of, const struct trace_call *call,
                           const struct trace_call *answer);

/*
 * Hands on each line of standard input. Prints each that holds no whole call or
 * answer, or one that is marked by `!`, or that is not known, and answers false
 * if there was one.
 */
bool answered_lines(answered_line *line);

/* The value of a word that must be a number, at most so large; ends the
 * program where it is not. */
uint64_t answered_number(uint64_t most, struct trace_word word);

#endif
