/*
 * words.h: the words of the trace form. A word's function takes the arguments
 * of its line, calls the library and adds the answer; it answers false where an
 * argument is not understood, and has then called nothing.
 *
 * A word that sets has no function of its own, since its row of calls.def says
 * all that is to be known of it. Each other row with a word has the function
 * answer_WORD.
 */
#ifndef WORDS_H
#define WORDS_H

#include <stdbool.h>

#include "shared/calls.h"
#include "shared/text.h"
#include "shared/trace.h"

typedef bool answer_word(const struct trace_word *arguments,
                         struct text *answer);

/* words_header.c: addresses, checksum and headers. */
answer_word answer_class;
answer_word answer_path;
answer_word answer_checksum;
answer_word answer_read;
answer_word answer_build;

/* words_echo.c: echo messages, and answering one. */
answer_word answer_read_echo;
answer_word answer_build_echo;
answer_word answer_echo;

/* words_batch.c: many datagrams in one call. */
answer_word answer_batch;

/* words_pairs.c: the pairs that a mission holds. */
answer_word answer_pairs;

/* words_relay.c: the relay. answer_new looks at no argument. */
answer_word answer_new;
answer_word answer_records;
answer_word answer_record;
answer_word answer_receive;
answer_word answer_take;
answer_word answer_counters;
answer_word answer_waiting;
answer_word answer_search;
bool answer_setting(enum call call, const struct trace_word *arguments,
                    struct text *answer);

#endif
