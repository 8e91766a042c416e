/* checksums.h: the `checksum` lines of the trace. */
#ifndef CHECKSUMS_H
#define CHECKSUMS_H

#include <stdint.h>

#include "shared/random.h"

void write_checksums(uint64_t count, struct random *random);

#endif
