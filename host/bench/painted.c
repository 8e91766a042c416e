/* painted.c: a stack by makecontext, which POSIX had up to 2004. */
#define _XOPEN_SOURCE 600

#include "painted.h"

#include <stdint.h>
#include <stdio.h>
#include <stdlib.h>
#include <string.h>
#include <ucontext.h>

#define PAINT 0xa5
#define OCTETS 65536

static uint8_t stack[OCTETS];

size_t painted_octets(void function(void))
{
    ucontext_t here, there;
    size_t untouched = 0;

    memset(stack, PAINT, OCTETS);
    if (getcontext(&there) != 0) {
        fputs("painted: no context\n", stderr);
        exit(2);
    }
    there.uc_stack.ss_sp = stack;
    there.uc_stack.ss_size = OCTETS;
    there.uc_link = &here;
    makecontext(&there, function, 0);
    if (swapcontext(&here, &there) != 0) {
        fputs("painted: no context\n", stderr);
        exit(2);
    }
    while (untouched < OCTETS && stack[untouched] == PAINT)
        untouched++;
    return OCTETS - untouched;
}
