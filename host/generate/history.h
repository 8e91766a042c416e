/* history.h: histories of the whole relay. */
#ifndef HISTORY_H
#define HISTORY_H

#include <stdint.h>

#include "shared/random.h"

void write_histories(uint64_t count, struct random *random);

#endif
