/*
 * slots.c: a slot is free where no entry waits with it. There is always one:
 * there are more slots than entries can wait. What arrives is kept there while
 * it is judged, and stays where a port took it.
 */
#include "slots.h"

#include <stdio.h>
#include <stdlib.h>

uint16_t slots_free(const struct node *node, uint32_t mission)
{
    for (uint16_t slot = 0; slot < SLOTS; slot++) {
        if (node->slots[mission][slot].copies == 0)
            return slot;
    }
    fputs("more entries wait than the ports can hold\n", stderr);
    exit(1);
}

void slots_count(struct node *node, struct kept *kept)
{
    kept->copies = 0;
    for (uint32_t port = 0; port < HJ_PORTS; port++) {
        uint32_t took = hj_took(kept->verdict) >> port & 1;

        node->wires[port].took += took;
        node->wires[port].dropped += hj_dropped(kept->verdict) >> port & 1;
        kept->copies += took;
    }
}
