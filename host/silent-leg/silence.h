/* silence.h: where silence begins, and what it can mean. */
#ifndef SILENCE_H
#define SILENCE_H

#include "legs.h"
#include "table.h"
#include "way.h"

/* Says it, with what the settings tell of the relays on the way, where there is
 * a way; null for captured datagrams. Answers whether nothing is silent. */
bool silence_tell(const struct legs *legs, const struct known *known,
                  const struct way *way);

#endif
