/*
 * answered.c: reading an answered trace. The awkward case is a line that looks
 * answered and is not: it lacks an argument, or a part of its answer, or the
 * answer ends in `!`, by which a program marks what it found wrong itself.
 */
#define _POSIX_C_SOURCE 200809L

#include "answered.h"

#include <inttypes.h>
#include <stdio.h>
#include <stdlib.h>
#include <string.h>

/* A good header is told with its length, its own length and its fields. */
#define READ_ANSWERS 17
/* A request is told with its identifier, sequence number and data, a reply with
 * five fields more. */
#define REQUEST_ANSWERS 5
#define REPLY_ANSWERS 10
/* A route that was found is told by its place, ones and port. */
#define SEARCH_ANSWERS 3

static size_t message_answers(const struct trace_call *answer)
{
    return answer->count > 1 && trace_is(answer->words[1], "0")
               ? REPLY_ANSWERS
               : REQUEST_ANSWERS;
}

/* The words that this answer of the call has at least. */
static size_t answers_of(enum call of, const struct trace_call *answer)
{
    bool begun = answer->count > 0;

    if (of == CALL_READ && begun && trace_is(answer->words[0], "0"))
        return READ_ANSWERS;
    if (of == CALL_READ_ECHO && begun && trace_is(answer->words[0], "0"))
        return message_answers(answer);
    if (of == CALL_SEARCH && begun && !trace_is(answer->words[0], "-") &&
        !(answer->count == 1 && trace_is(answer->words[0], "21")))
        return SEARCH_ANSWERS;
    return call_facts[of].answers;
}

static bool is_whole(enum call of, const struct trace_call *call,
                     const struct trace_call *answer)
{
    if (of == CALLS)
        return true;
    return call->count == 1 + strlen(call_facts[of].arguments) &&
           answer->count >= answers_of(of, answer);
}

static bool cut(const char *line, size_t length, struct trace_call *call,
                struct trace_call *answer)
{
    const char *end = line + length;
    const char *rest;

    answer->count = 0;
    if (trace_cut(line, length, call) != TRACE_CALL)
        return false;
    rest = call->words[call->count - 1].text +
           call->words[call->count - 1].length;
    if (rest == end)
        return trace_call_of(call->words[0]) > CALLS;
    if (end - rest < 3 || memcmp(rest, " = ", 3) != 0)
        return false;
    return trace_cut(rest + 3, (size_t)(end - rest) - 3, answer) ==
               TRACE_CALL &&
           !trace_is(answer->words[answer->count - 1], "!");
}

static bool is_good(const char *line, size_t length, answered_line *known)
{
    struct trace_call call, answer;
    enum call of;

    if (!cut(line, length, &call, &answer))
        return false;
    of = trace_call_of(call.words[0]);
    return is_whole(of, &call, &answer) && known(of, &call, &answer);
}

bool answered_lines(answered_line *known)
{
    char *line = NULL;
    size_t room = 0;
    ssize_t got;
    bool good = true;

    while ((got = getline(&line, &room, stdin)) > 0) {
        size_t length = (size_t)got - (line[got - 1] == '\n');

        if (!is_good(line, length, known)) {
            printf("no good answer: %.*s\n", (int)length, line);
            good = false;
        }
    }
    free(line);
    return good && !ferror(stdin);
}

uint64_t answered_number(uint64_t most, struct trace_word word)
{
    uint64_t number;

    if (!trace_number(word, most, &number)) {
        fprintf(stderr, "not a number to %" PRIu64 ": %.*s\n", most,
                (int)word.length, word.text);
        exit(1);
    }
    return number;
}
