/*
 * calls.c: the facts, taken from calls.def row by row. A call may always end in
 * 0, and 0 also ends the list of its other numbers.
 */
#include "calls.h"

#include <stddef.h>

const struct call_facts call_facts[LINES] = {
#define WORD(NAME, function, kind, object, lent, numbers, word, arguments,    \
             answers, ...)                                                    \
    [CALL_##NAME] = {"hj_" #function, KIND_##kind, ON_##object, LENT_##lent,  \
                     numbers,         #word,       arguments,   answers,      \
                     {__VA_ARGS__}},
#define CALL(NAME, function, kind, object, lent, numbers, ...)                \
    [CALL_##NAME] = {"hj_" #function, KIND_##kind, ON_##object, LENT_##lent,  \
                     numbers,         NULL,        NULL,        0,            \
                     {__VA_ARGS__}},
#define LINE(NAME, word, arguments)                                           \
    [LINE_##NAME] = {NULL,  KIND_LINE, ON_NOTHING, LENT_NONE,                 \
                     0,     #word,     arguments,  0,                         \
                     {0}},
#include "calls.def"
};

bool call_ends_in(enum call call, uint32_t number)
{
    const uint8_t *end = call_facts[call].ends + 1;

    while (*end != 0 && *end != number)
        end++;
    return *end == number;
}
