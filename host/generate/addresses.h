/* addresses.h: the addresses of the trace, each a `class` and a `path` line. */
#ifndef ADDRESSES_H
#define ADDRESSES_H

#include <stdint.h>

#include "shared/random.h"

void write_addresses(uint64_t count, struct random *random);

#endif
