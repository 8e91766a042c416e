/*
 * Answers a trace: reads calls in the trace form on standard input and writes
 * each with its answer on standard output. It is written from the papers
 * alone, so that what it answers can be laid beside what the library under
 * proof answers.
 *
 * Status 0: every line was understood; 1: some line was not, and was answered
 * by "? LINE"; 2: the output could not be written or the input not read, or an
 * argument is not known.
 *
 * The awkward case: a line is known not to be understood only after its
 * arguments are looked at, so the echo of the call is put first and taken
 * back then.
 */
#include <stdio.h>
#include <string.h>

#include "plain_words.h"

static plain_input input;
static plain_line line;
static plain_session session;

static void put_call(plain_text *text, const plain_call *call)
{
    for (size_t at = 0; at < call->count; at++) {
        if (at > 0)
            plain_text_string(text, " ");
        plain_text_put(text, call->words[at].text, call->words[at].length);
    }
}

static void put_line_not_understood(void)
{
    plain_text_string(&session.text, "? ");
    plain_text_put(&session.text, line.text, line.length);
    while (plain_input_rest(&input, &line)) {
        plain_text_flush(&session.text);
        plain_text_put(&session.text, line.text, line.length);
    }
    plain_text_end_line(&session.text);
}

/* Answers the nameless last one where no word is so named. */
static const plain_meaning *look_up(const plain_meaning *meanings,
                                    plain_word word)
{
    while (meanings->name != NULL && !plain_word_is(word, meanings->name))
        meanings++;
    return meanings;
}

/* False, with nothing put, where the call is not understood. */
static bool answer_call(const plain_call *call)
{
    const plain_meaning *meaning = look_up(plain_relay_words, call->words[0]);
    size_t begin = session.text.used;

    if (meaning->name == NULL)
        meaning = look_up(plain_header_words, call->words[0]);
    if (meaning->name == NULL || call->count - 1 != meaning->arguments)
        return false;
    put_call(&session.text, call);
    if (!meaning->answer(&session, call->words + 1)) {
        session.text.used = begin;
        return false;
    }
    plain_text_end_line(&session.text);
    return true;
}

/* Whether every line was understood. */
static bool answer_lines(void)
{
    bool all_understood = true;
    plain_call call;

    while (plain_input_line(&input, &line)) {
        plain_kind kind = plain_line_split(&line, &call);

        if (kind == PLAIN_NOTHING)
            continue;
        if (kind == PLAIN_NOT_UNDERSTOOD || !answer_call(&call)) {
            all_understood = false;
            put_line_not_understood();
        }
    }
    return all_understood;
}

static const char help[] =
    "usage: plain [--help | --version] < TRACE > ANSWERED\n"
    "\n"
    "Reads calls in the trace form (docs/TRACE.md), one a line, and writes\n"
    "each with the answer of the relay in plain C. The library's own answers\n"
    "are what `replay` writes; the two must not differ.\n"
    "\n"
    "Status: 0 every line was understood; 1 some line was not; 2 bad usage,\n"
    "or the input or the output failed.\n";

/* The status that the first argument ends the program with. */
static int answer_argument(const char *argument)
{
    if (strcmp(argument, "--help") == 0) {
        fputs(help, stdout);
    } else if (strcmp(argument, "--version") == 0) {
        puts("plain (Harpjuniper) " PLAIN_VERSION);
    } else {
        fprintf(stderr, "plain: %s: %s\nplain: try --help\n",
                argument[0] == '-' ? "unknown option" : "unexpected argument",
                argument);
        return 2;
    }
    return fflush(stdout) == 0 ? 0 : 2;
}

int main(int count, char **arguments)
{
    bool all_understood;

    if (count > 1)
        return answer_argument(arguments[1]);
    input.file = stdin;
    session.text.file = stdout;
    plain_session_fresh(&session);
    all_understood = answer_lines();
    plain_text_flush(&session.text);
    if (session.text.failed || ferror(stdin)) {
        fputs("plain: cannot read the input or write the output\n", stderr);
        return 2;
    }
    return all_understood ? 0 : 1;
}
