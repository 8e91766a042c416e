/* plain.h: the calls of the soak on host/plain. */
#ifndef PLAIN_H
#define PLAIN_H

#include "call.h"

/* Makes the call on plain's own relay and on the list, which it may write. Of
 * the output it writes what is due. */
void soak_plain(const struct soak_call *call, hj_record *routes,
                uint8_t *output, struct soak_answer *answer);

#endif
