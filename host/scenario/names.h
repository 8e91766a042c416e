/* names.h: what the library's numbers and counters are called. */
#ifndef NAMES_H
#define NAMES_H

#include "harpjuniper.h"

extern const char *const COUNTER_NAMES[HJ_COUNTERS];
/* A refusal number in words. */
const char *number_name(uint32_t number);

#endif
