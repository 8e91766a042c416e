/* told.h: the timeline, told as it happens. */
#ifndef TOLD_H
#define TOLD_H

#include "nodes.h"

void told_quiet(bool quiet);
bool told_is_quiet(void);
void told_scene(const char *title);
void told_say(const char *text);
/* The user data, in quotes; of an echo message what it is. */
void told_data(const struct datagram *datagram);
/* The addresses, as they stand in the fields. */
void told_addresses(const hj_fields *fields);
void told_send(uint32_t node, uint32_t port, const hj_fields *fields,
               const struct datagram *datagram);
void told_start(uint32_t node, uint32_t port, bool own, hj_answer entry);
void told_refused_take(uint32_t node, uint32_t port, uint32_t number);
/* A sweep by the mission, which held so many pairs before it. */
void told_sweep(uint32_t node, uint32_t mission, uint32_t second,
                uint32_t refusal, uint32_t before);
/* What became of a wire, unless it is quiet. */
void told_wire(uint32_t node, uint32_t port, const char *what);
/* What was on the wire of a port is lost. */
void told_lost(uint32_t node, uint32_t port);
/* Which ports took it and which dropped it, to the end of the line. */
void told_ports(hj_verdict verdict);
/* The counters of the mission that moved. */
void told_counters(const struct node *node, uint32_t mission,
                   const uint32_t *before);
/* What came by the port. The mission's counters are told against those before,
 * unless these are null. */
void told_arrival(uint32_t node, uint32_t port, const struct kept *kept,
                  const uint32_t *before);

#endif
