/* books.h: the counters and the ledger of each relay. */
#ifndef BOOKS_H
#define BOOKS_H

#include <stdbool.h>

/* Prints counters and ledgers; whether every ledger closes. */
bool books_close(void);

#endif
