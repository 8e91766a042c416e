/*
 * line.h: the line of a scenario that is being read, word by word. What is not
 * as it should be ends the program.
 */
#ifndef LINE_H
#define LINE_H

#include <stdbool.h>
#include <stddef.h>
#include <stdint.h>

/* Which program reads which file; said where a line is refused. */
void line_file(const char *program, const char *file);
/* Cuts a line into words, in place; false where nothing stands in it. Number 0
 * is for words that stand in no file. */
bool line_begin(unsigned number, char *text);
/* Says where the line is wrong and what was expected; ends with status 2. */
void line_refuse(const char *expected, const char *found);
/* What is left of the line, as it was written. */
const char *line_rest(void);
/* The same, copied, and not taken. */
void line_copy(char *copy, size_t room);
bool line_more(void);
/* Takes the next word if it is this one. */
bool line_is(const char *word);
/* The next word, each refused where it is not what is asked for. */
const char *line_word(const char *expected);
const char *line_text(const char *expected);
uint32_t line_number(const char *expected, uint32_t least, uint32_t most);
/* Four octets with dots; of one octet too, where `extended` is lent. */
uint32_t line_address(const char *expected, uint32_t *extended);
uint32_t line_node(void);
uint32_t line_port(void);
/* Ports with commas, `-` for none. */
uint32_t line_set(const char *expected);
/* Which of the words it is, from 0. The list ends with a null. */
uint32_t line_choice(const char *expected, const char *const *choices);
void line_end(void);

#endif
