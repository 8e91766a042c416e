/*
 * books.h: what each relay answered, held against what is due.
 */
#ifndef BOOKS_H
#define BOOKS_H

#include "due.h"

/* A new net: no relay has counted anything. */
void books_open(void);
/* A flood begins. */
void books_begin(void);
/* What came by a port, and the answer to it. Each of these tells the first
 * thing that is not as due, and is then false. */
bool books_note(struct end at, uint32_t order, hj_verdict verdict);
/* At the end of a flood, of so many copies where so many are due. */
bool books_close(uint64_t copies, uint64_t due_copies);
/* The pairs that the relays hold. */
bool books_pairs(void);

/* What is said of a fault: the run, and then the node and the order, where it
 * is the fault of one. */
#define NONE UINT32_MAX
void books_say_run(uint64_t seed, uint32_t net);
bool books_fail(uint32_t node, uint32_t order, const char *what,
                uint64_t found, uint64_t is_due);

/* In the flood: nodes that an order reached, and datagrams sent on. */
uint64_t books_reached(void);
uint64_t books_sent_on(void);

#endif
