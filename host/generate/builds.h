/* builds.h: the `build` lines of the trace. */
#ifndef BUILDS_H
#define BUILDS_H

#include <stdint.h>

#include "shared/random.h"

void write_builds(uint64_t count, struct random *random);

#endif
