/* messages.h: what was reached of the words read_echo and build_echo. */
#ifndef COVERAGE_MESSAGES_H
#define COVERAGE_MESSAGES_H

#include "shared/answered.h"

/* Counts a line; false where it has no good answer. */
bool count_read_echo(const struct trace_call *call,
                     const struct trace_call *answer);
bool count_build_echo(const struct trace_call *call,
                      const struct trace_call *answer);

/* Lines of read_echo, and of build_echo. */
uint64_t read_echo_calls(void);
uint64_t build_echo_calls(void);

void say_messages(void);

#endif
