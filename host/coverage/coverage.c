/*
 * coverage: reads an answered trace and says how often each answer and each
 * element was reached in it.
 *
 *     coverage headers=N builds=N addresses=N checksums=N messages=N
 *              histories=N < ANSWERED
 *
 * It prints a table, and fails (status 1) where something was reached under 100
 * times, where fewer calls ran than stated, or where a line holds no answer or
 * one that is marked by `!`. A comparison that agrees on nothing but refusals
 * would show nothing; this is what says that it did not.
 *
 * What is counted of headers, addresses and checksums stands in headers.c and
 * its lists, of echo messages in messages.c, and what is counted of the relay
 * in relay.c and its lists.
 */
#include <stdio.h>

#include "headers.h"
#include "messages.h"
#include "relay.h"
#include "shared/answered.h"
#include "shared/options.h"
#include "shared/settings.h"
#include "table.h"

static bool count_line(enum call of, const struct trace_call *call,
                       const struct trace_call *answer)
{
    if (of == CALLS)
        return false;
    return of > CALLS || call_has_state(of)
               ? count_relay_line(of, call, answer)
               : count_header_line(of, call, answer);
}

enum {
    HEADERS,
    BUILDS,
    ADDRESSES,
    CHECKSUMS,
    MESSAGES,
    HISTORIES,
    SETTINGS
};

static const char HELP[] =
    "usage: coverage [--help | --version] headers=N builds=N addresses=N\n"
    "                checksums=N messages=N histories=N < ANSWERED\n"
    "\n"
    "Says how often each answer and each element was reached in an answered\n"
    "trace (docs/TRACE.md). The numbers are those that `generate` was given.\n"
    "\n"
    "Status: 0 all was reached often enough; 1 something was not, or a line\n"
    "has no good answer; 2 bad usage, or the output failed.\n";

static void say_calls(const struct setting *stated)
{
    struct header_calls calls = header_calls();

    puts("Calls:");
    say_row("read", calls.read, stated[HEADERS].value);
    say_row("build", calls.build, stated[BUILDS].value);
    say_row("class", calls.class, stated[ADDRESSES].value);
    say_row("path", calls.path, stated[ADDRESSES].value);
    say_row("checksum", calls.checksum, stated[CHECKSUMS].value);
    say_row("read_echo", read_echo_calls(), stated[MESSAGES].value);
    say_row("build_echo", build_echo_calls(), stated[MESSAGES].value / 3);
    say_row("the relay's, 200 a history", relay_calls(),
            200 * stated[HISTORIES].value);
}

int main(int count, char **arguments)
{
    static const struct program PROGRAM = {"coverage", HELP, true};
    int status = options_status(&PROGRAM, arguments + (count > 0));
    struct setting stated[SETTINGS] = {[HEADERS] = {"headers", 0},
                                       [BUILDS] = {"builds", 0},
                                       [ADDRESSES] = {"addresses", 0},
                                       [CHECKSUMS] = {"checksums", 0},
                                       [MESSAGES] = {"messages", 0},
                                       [HISTORIES] = {"histories", 0}};

    if (status != OPTIONS_GO_ON)
        return status;
    if (!settings_take(&PROGRAM, stated, SETTINGS, arguments + 1))
        return 2;
    if (count != 1 + SETTINGS) {
        fputs("coverage: say each of headers, builds, addresses, checksums, "
              "messages and histories\n"
              "coverage: try --help\n",
              stderr);
        return 2;
    }
    if (!answered_lines(count_line))
        say_failed("some line has no good answer");
    say_calls(stated);
    say_headers();
    say_relay();
    if (table_failed())
        puts("coverage: FAILED: something above is TOO FEW or has no answer");
    return options_end(&PROGRAM, table_failed() ? 1 : 0);
}
