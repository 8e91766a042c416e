/*
 * generate: writes a trace to compare two implementations on, from a seed, the
 * same on every machine.
 *
 *     generate [seed=N] [headers=N] [builds=N] [addresses=N] [checksums=N]
 *              [messages=N] [histories=N]
 *
 * Each part of the trace has its file: headers.c, builds.c, addresses.c,
 * checksums.c, messages.c, and history.c, which has the whole relay's calls
 * made by ports.c, routes.c, entries.c, setting.c, arrivals.c, batches.c and
 * echoes.c, with the floods and seconds of shared/floods.c and the echo
 * requests of shared/echoes.c. They draw from one stream of numbers, so a count
 * that is changed changes all that comes behind it.
 */
#include "addresses.h"
#include "builds.h"
#include "checksums.h"
#include "headers.h"
#include "history.h"
#include "messages.h"
#include "shared/options.h"
#include "shared/random.h"
#include "shared/settings.h"

enum {
    SEED,
    HEADERS,
    BUILDS,
    ADDRESSES,
    CHECKSUMS,
    MESSAGES,
    HISTORIES,
    SETTINGS
};

static const char HELP[] =
    "usage: generate [--help | --version] [NAME=N]... > TRACE\n"
    "\n"
    "Writes a trace (docs/TRACE.md) to compare implementations on, the same\n"
    "from the same numbers on every machine. The names, and what N is where\n"
    "none is given:\n"
    "    seed       1071     begins the random numbers\n"
    "    headers    1000000  read lines\n"
    "    builds     100000   build lines\n"
    "    addresses  200000   class lines, and as many path lines\n"
    "    checksums  30000    checksum lines\n"
    "    messages   60000    read_echo lines, and a third as many build_echo\n"
    "                        lines\n"
    "    histories  4680     histories of a whole relay\n"
    "\n"
    "Status: 0 written; 2 bad usage, or the output failed.\n";

int main(int count, char **arguments)
{
    struct setting settings[SETTINGS] = {
        [SEED] = {"seed", 1071},
        [HEADERS] = {"headers", 1000000},
        [BUILDS] = {"builds", 100000},
        [ADDRESSES] = {"addresses", 200000},
        [CHECKSUMS] = {"checksums", 30000},
        [MESSAGES] = {"messages", 60000},
        [HISTORIES] = {"histories", 4680},
    };
    static const struct program PROGRAM = {"generate", HELP, true};
    int status = options_status(&PROGRAM, arguments + (count > 0));
    struct random random;

    if (status != OPTIONS_GO_ON)
        return status;
    if (!settings_take(&PROGRAM, settings, SETTINGS, arguments + 1))
        return 2;
    random.state = settings[SEED].value;
    write_headers(settings[HEADERS].value, &random);
    write_builds(settings[BUILDS].value, &random);
    write_addresses(settings[ADDRESSES].value, &random);
    write_checksums(settings[CHECKSUMS].value, &random);
    write_messages(settings[MESSAGES].value, &random);
    write_histories(settings[HISTORIES].value, &random);
    return options_end(&PROGRAM, 0);
}
