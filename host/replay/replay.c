/*
 * replay: answers a trace. It reads calls in the trace form on standard input,
 * makes each of them on the library, and writes each with the library's answer,
 * so that any other implementation can be compared with it by `diff`.
 *
 * A line is known not to be understood only once its arguments were looked at,
 * so the answer is gathered first and the line written after it.
 */
#define _POSIX_C_SOURCE 200809L

#include <stdio.h>
#include <stdlib.h>
#include <string.h>

#include "shared/options.h"
#include "shared/text.h"
#include "shared/trace.h"
#include "words.h"

/* A word's function, by its call; none for a word that sets. */
#define ANSWER_STATELESS(word) answer_##word
#define ANSWER_SETTING(word) NULL
#define ANSWER_CLEARING(word) NULL
#define ANSWER_DATAGRAM(word) answer_##word
#define ANSWER_LOOK(word) answer_##word

static answer_word *const ANSWERS[LINES] = {
#define WORD(NAME, function, kind, object, lent, numbers, word, ...)          \
    [CALL_##NAME] = ANSWER_##kind(word),
#define LINE(NAME, word, arguments) [LINE_##NAME] = answer_##word,
#include "shared/calls.def"
};

static bool answer_call(const struct trace_call *call, struct text *answer)
{
    enum call of = trace_call_of(call->words[0]);
    const struct trace_word *arguments = call->words + 1;

    text_clear(answer);
    if (of == CALLS || call->count != 1 + strlen(call_facts[of].arguments))
        return false;
    return ANSWERS[of] != NULL ? ANSWERS[of](arguments, answer)
                               : answer_setting(of, arguments, answer);
}

static void write_answered(const struct trace_call *call,
                           const struct text *answer)
{
    for (size_t i = 0; i < call->count; i++) {
        if (i > 0)
            putchar(' ');
        fwrite(call->words[i].text, 1, call->words[i].length, stdout);
    }
    if (answer->used > 0) {
        fputs(" = ", stdout);
        fwrite(answer->start, 1, answer->used, stdout);
    }
    putchar('\n');
}

static void write_not_understood(const char *line, size_t length)
{
    fputs("? ", stdout);
    fwrite(line, 1, length, stdout);
    putchar('\n');
}

/* Whether every line was understood. The relay is fresh at first. */
static bool replay(void)
{
    static struct text answer;
    char *line = NULL;
    size_t room = 0;
    ssize_t got;
    bool understood = answer_new(NULL, &answer) && answer.used == 0;

    while ((got = getline(&line, &room, stdin)) > 0) {
        size_t length = (size_t)got - (line[got - 1] == '\n');
        struct trace_call call;
        enum trace_kind kind = trace_cut(line, length, &call);

        if (kind == TRACE_CALL && answer_call(&call, &answer)) {
            write_answered(&call, &answer);
        } else if (kind != TRACE_NOTHING) {
            write_not_understood(line, length);
            understood = false;
        }
    }
    free(line);
    return understood;
}

static const char HELP[] =
    "usage: replay [--help | --version] < TRACE > ANSWERED\n"
    "\n"
    "Reads calls in the trace form (docs/TRACE.md), one a line, makes each\n"
    "on the library and writes it with the library's answer:\n"
    "    class 0a04090f = 2\n"
    "Words: read, build, class, path, checksum, read_echo, build_echo; and on\n"
    "one relay, fresh at first, new, set_router, set_port, set_route,\n"
    "set_group, set_path, set_lifetime, set_echo_drop, clear_route,\n"
    "clear_group, clear_path, sweep, records, record, receive, batch, echo,\n"
    "take, counters, waiting, search, pairs.\n"
    "Comments and blank lines are not written. A line that is not understood\n"
    "is answered by `? LINE`.\n"
    "\n"
    "Status: 0 every line was understood; 1 some line was not; 2 bad usage,\n"
    "or the input or the output failed.\n";

int main(int count, char **arguments)
{
    static const struct program PROGRAM = {"replay", HELP, false};
    int status = options_status(&PROGRAM, arguments + (count > 0));
    bool understood;

    if (status != OPTIONS_GO_ON)
        return status;
    understood = replay();
    if (ferror(stdin)) {
        fputs("replay: the input failed\n", stderr);
        return 2;
    }
    return options_end(&PROGRAM, understood ? 0 : 1);
}
