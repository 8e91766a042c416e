/* rules.h: what holds of a call and its answer on whatever words. */
#ifndef RULES_H
#define RULES_H

#include "pieces.h"

/* Makes of what was lent before the call what is due after it; says what does
 * not hold, or NULL. */
const char *soak_rules(const struct soak_call *call,
                       const struct soak_answer *answer,
                       const struct soak_pieces *due);

#endif
