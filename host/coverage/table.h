/*
 * table.h: the table that coverage prints, row by row. A row that was reached
 * too seldom is marked, and remembered: the table has then failed.
 */
#ifndef TABLE_H
#define TABLE_H

#include <stdbool.h>
#include <stddef.h>
#include <stdint.h>

#include "shared/length.h"

/* What must be reached so often. */
#define LEAST 100

/* A row of a table, TOO FEW where it was not reached often enough. */
void say_row(const char *name, uint64_t reached, uint64_t least);
void say_list(const char *const *names, const uint64_t *reached, size_t count);
/* The answers to a word, by their numbers; one without a name is no answer. */
void say_answers(const char *const *names, const uint64_t *reached,
                 size_t count);
/* Of numbers that each must be reached, the one that was reached least. */
void say_least(const char *name, const uint64_t *reached, size_t count);
void say_failed(const char *what);

/* Whether anything was marked. */
bool table_failed(void);

#endif
