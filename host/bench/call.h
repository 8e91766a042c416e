/*
 * call.h: the call at hand, which both sides make. A side's function finds its
 * arguments here, and leaves the answer here. The measured ones call
 * bench_begin and bench_end just around the implementation's call, which is
 * made directly, so that what is counted is what a C program pays: the passing
 * of arguments, the call and its return.
 */
#ifndef CALL_H
#define CALL_H

#include <stdbool.h>
#include <stddef.h>
#include <stdint.h>

#include "shared/calls.h"
#include "shared/trace.h"

/* What both sides must answer alike, the numbers of each other call 0. */
struct bench_answer {
    uint32_t refusal, local, onward, took, dropped;
    uint32_t header; /* octets of the header that came, so of the one read */
    uint32_t rewritten, rewritten_octets;
    uint32_t slot, precedence;
    uint32_t pairs; /* held after a sweep */
    uint32_t length;
    uint32_t octets; /* of a reply, or of a message that was built */
    uint32_t type, identifier; /* of a message that was read */
    uint8_t output[8191];
};

/* What receive is lent of the output. */
#define BENCH_HEADERS 400

struct bench_call {
    enum call which;
    uint32_t numbers[CALL_MOST_NUMBERS]; /* in their order, octets left out */
    uint32_t mission; /* whose call it is */
    size_t records;   /* of the list */
    size_t count;
    uint8_t octets[TRACE_MOST_OCTETS];
    struct bench_answer answer;
};

extern struct bench_call bench_call;

/* The marks; scripts/bench looks for them by these names. */
void bench_begin(void);
void bench_end(void);
/* The one mark and then the other, which is what the marks cost. */
void bench_nothing(void);

#endif
