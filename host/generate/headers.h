/* headers.h: the `read` lines of the trace. */
#ifndef HEADERS_H
#define HEADERS_H

#include <stdint.h>

#include "shared/random.h"

void write_headers(uint64_t count, struct random *random);

#endif
