/* foretold.h: at which take each entry goes out, and whether it did. */
#ifndef FORETOLD_H
#define FORETOLD_H

#include "nodes.h"

/* The word `foretell`: reads the rest of its line. */
void foretell(void);

/* What came is kept under the slot, and waits on each port that took it. */
void foretold_enter(uint32_t node, uint32_t slot, const struct kept *kept);
/* The port handed out the slot. */
void foretold_take(uint32_t node, uint32_t port, uint32_t slot);
/* Entries that went out at the take foretold; those, and all that did not. */
uint32_t foretold_kept(void);
uint32_t foretold_count(void);

#endif
