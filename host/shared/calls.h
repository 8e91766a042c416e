/*
 * calls.h: the calls of the library as numbers, and the facts of each, both
 * from the one table, calls.def.
 */
#ifndef CALLS_H
#define CALLS_H

#include <stdbool.h>
#include <stdint.h>

/* The calls, and behind them the lines of a trace that are no call. */
enum call {
#define WORD(NAME, ...) CALL_##NAME,
#define CALL(NAME, ...) CALL_##NAME,
#include "calls.def"
    CALLS, /* how many; no call and no line */
#define LINE(NAME, ...) LINE_##NAME,
#include "calls.def"
    LINES /* the end of these */
};

enum call_kind {
    KIND_STATELESS,
    KIND_FRESH,
    KIND_SETTING,
    KIND_CLEARING,
    KIND_DATAGRAM,
    KIND_LOOK,
    KIND_LINE /* no call */
};

enum call_object {
    ON_NOTHING,
    ON_BOARD,
    ON_MISSION,
    ON_PORT,
    ON_ROUTE,
    ON_GROUP,
    ON_PATH,
    ON_COUNTER,
    ON_QUEUE,
    ON_ADDRESS,
    ON_PAIR,
    CALL_OBJECTS
};

/* What a call is lent, a set. */
enum call_lent {
    LENT_NONE = 0,
    LENT_B = 1,
    LENT_M = 2,
    LENT_BM = LENT_B | LENT_M,
    LENT_R = 4,
    LENT_BR = LENT_B | LENT_R,
    LENT_BMR = LENT_B | LENT_M | LENT_R
};

/* The numbers that a call can end in are under this one. */
#define CALL_NUMBERS 36
/* Numbers that a call takes at most, and a line of the list. */
#define CALL_MOST_NUMBERS 9

/* What calls.def says of a call. */
struct call_facts {
    const char *name; /* as C calls it; null for a line */
    enum call_kind kind;
    enum call_object object;
    enum call_lent lent;
    uint8_t numbers;
    const char *word;      /* null where traces have none */
    const char *arguments; /* likewise */
    uint8_t answers;
    uint8_t ends[15]; /* a second 0 ends them */
};

extern const struct call_facts call_facts[LINES];

/* Whether the call may end in the number. */
bool call_ends_in(enum call call, uint32_t number);

static inline bool call_has_state(enum call call)
{
    return call_facts[call].lent != LENT_NONE;
}

/* Whether it begins a board or a mission, or sets or empties something. */
static inline bool call_sets(enum call call)
{
    enum call_kind kind = call_facts[call].kind;

    return kind == KIND_FRESH || kind == KIND_SETTING || kind == KIND_CLEARING;
}

#endif
