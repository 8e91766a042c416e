/* messages.h: the `read_echo` and `build_echo` lines of the trace. */
#ifndef MESSAGES_H
#define MESSAGES_H

#include <stdint.h>

#include "shared/random.h"

void write_messages(uint64_t count, struct random *random);

#endif
