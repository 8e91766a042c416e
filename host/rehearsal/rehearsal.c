/*
 * rehearsal: flies a story on several relays of the library, linked to each
 * other in memory, and tells what each of them answered.
 *
 *     rehearsal [--batches] FILE
 *
 * FILE is a scenario, a line for each step (docs/REHEARSAL.md). The story of
 * the customer stands in scenarios/biocide.txt. Each line is done as it is
 * read: a line that is not understood ends the rehearsal where it stands, and
 * what was flown up to there has been told.
 *
 * The scenario is performed by host/scenario; here is what is said at the end.
 */
#include <inttypes.h>
#include <stdio.h>
#include <string.h>

#include "scenario/books.h"
#include "scenario/expect.h"
#include "scenario/foretold.h"
#include "scenario/hearing.h"
#include "scenario/meaning.h"
#include "scenario/words.h"
#include "shared/options.h"

/* The end: counters, ledger, meaning, takes, expectations. Answers the status.
 */
static int conclude(void)
{
    bool closes = books_close();
    bool as_named = meaning_same() == meaning_count();
    bool as_foretold = foretold_kept() == foretold_count();

    printf("\n%u of %u copies name what the datagram named that came.\n",
           (unsigned)meaning_same(), (unsigned)meaning_count());
    printf("%u of %u entries went out at the take foretold.\n",
           (unsigned)foretold_kept(), (unsigned)foretold_count());
    printf("%u of %u expectations held; the ledger %s.\n",
           (unsigned)(expect_count() - expect_failures()),
           (unsigned)expect_count(),
           closes ? "closes on every port" : "DOES NOT CLOSE");
    return closes && as_named && as_foretold && expect_failures() == 0 ? 0 : 1;
}

/* How many of how many items there were. That is no part of the story, which
 * is the same without them. */
static void tell_batches(void)
{
    for (uint32_t items = 1; items <= HJ_PORTS; items++) {
        if (hearing_batches(items) > 0)
            fprintf(stderr, "rehearsal: %" PRIu32 " batches of %" PRIu32 "\n",
                    hearing_batches(items), items);
    }
}

static int rehearse(const char *name)
{
    struct performance all = {.program = "rehearsal", .file = name};
    int status = words_perform(&all);

    if (status == 0)
        status = conclude();
    tell_batches();
    return status;
}

static const char HELP[] =
    "usage: rehearsal [--help | --version] [--batches] FILE\n"
    "\n"
    "Flies the scenario in FILE on relays of the library, linked in memory,\n"
    "and prints what was sent, what each relay answered, and the time on the\n"
    "links; then the counters and the ledger of each relay. The words of a\n"
    "scenario are in docs/REHEARSAL.md. `make rehearsal` flies\n"
    "scenarios/biocide.txt.\n"
    "\n"
    "With --batches, what arrives at a relay at one moment is handed over in\n"
    "one call. The story is the same; how many batches of how many datagrams\n"
    "there were is said on standard error.\n"
    "\n"
    "Status: 0 all went as expected and every ledger closes; 1 not so; 2 bad\n"
    "usage, a line that is not understood, or the file or the output failed.\n";

/* Whether the option is among the words, which then lack it. */
static bool take_option(char **words, const char *option)
{
    while (*words != NULL && strcmp(*words, option) != 0)
        words++;
    if (*words == NULL)
        return false;
    for (; *words != NULL; words++)
        words[0] = words[1];
    return true;
}

int main(int count, char **arguments)
{
    static const struct program PROGRAM = {"rehearsal", HELP, true};
    char **words = arguments + (count > 0);
    bool batches = take_option(words, "--batches");
    int status = options_status(&PROGRAM, words);

    if (status != OPTIONS_GO_ON)
        return status;
    if (words[0] == NULL || words[1] != NULL) {
        fputs("rehearsal: say one scenario, such as scenarios/biocide.txt\n"
              "rehearsal: try --help\n",
              stderr);
        return 2;
    }
    if (batches)
        hearing_in_batches();
    return options_end(&PROGRAM, rehearse(words[0]));
}
