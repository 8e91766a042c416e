/*
 * painted.h: how much stack a function uses. It is run on a stack of its own,
 * every octet of which was painted before, and the lowest octet that is no
 * longer of that paint is looked for. An octet that a frame has and never
 * writes to is not seen.
 */
#ifndef PAINTED_H
#define PAINTED_H

#include <stddef.h>

/* The octets from the lowest one written to up to the stack's start. */
size_t painted_octets(void function(void));

#endif
