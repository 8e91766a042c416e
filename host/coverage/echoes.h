/* echoes.h: what was reached of echo requests. */
#ifndef COVERAGE_ECHOES_H
#define COVERAGE_ECHOES_H

#include "view.h"

/* Counts a line, looked at with the view before it; false where it has no good
 * answer. */
bool count_echo(const struct view *view, const struct trace_call *call,
                const struct trace_call *answer);

void say_echoes(void);

#endif
