/* table.h: the legs of a way as a table. */
#ifndef TABLE_H
#define TABLE_H

#include "legs.h"

/* What is known of a leg beside what the replies say. */
struct known {
    uint32_t bits; /* a second; 0 where they are not known, as below */
    uint32_t request, reply; /* octets on this leg */
    char text[100];          /* which link it is; empty where it is not known */
};

/* An address as it stands in the fields, of one octet or of four. */
const char *table_address(uint64_t address, uint32_t extended);
/* Prints the legs up to the last that answered, and the first silent one. */
void table_print(const struct legs *legs, const struct known *known);

#endif
