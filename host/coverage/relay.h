/* relay.h: what was reached of the words that are called on a relay. */
#ifndef RELAY_H
#define RELAY_H

#include "shared/answered.h"

/* Counts a line; false where it has no good answer, or is another call's. */
answered_line count_relay_line;
/* `new` and every word after it that is the relay's. */
uint64_t relay_calls(void);
void say_relay(void);

#endif
