/*
 * headers.h: what the headers sent on say, held against the octets that came.
 * Of the settings only the ports' addresses are kept, since an address of one
 * octet means what the port by which it is read makes of it.
 */
#ifndef LEDGER_HEADERS_H
#define LEDGER_HEADERS_H

#include <stdint.h>

#include "shared/arriving.h"
#include "shared/trace.h"

/* No port has an address. */
void headers_begin(void);
void headers_note_port(uint32_t port, uint32_t address);

/* The address of a port; 0 where it has none. */
uint32_t headers_address(uint32_t port);

/* An address of a header, as it is read by a port. */
uint32_t headers_named(const struct arriving *header, uint32_t address,
                       uint32_t port);

/* What is wrong with one of the headers, each read as it is read behind its
 * port; null for nothing. There is one for each port of the set. */
const char *headers_wrong(uint32_t arrival, const struct arriving *came,
                          uint32_t ports, struct trace_word out);

#endif
