/* ours.h: the calls of the soak on the library. */
#ifndef OURS_H
#define OURS_H

#include "call.h"
#include "pieces.h"

/* Makes the call on what is lent. */
void soak_ours(const struct soak_call *call, const struct soak_pieces *lent,
               struct soak_answer *answer);

/* The parts of a verdict on a datagram. */
void soak_tell(hj_verdict verdict, struct soak_answer *answer);

#endif
