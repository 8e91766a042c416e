/*
 * words.c: a scenario is performed line by line, as it is read. The words that
 * set up the net tell nothing while it is quiet and let no time pass, so that a
 * program may have the net alone, as it stands at the end of a scene, and pass
 * over the story.
 *
 * The parts of this folder, each of which uses only those above it:
 *
 *   nodes.c, names.c        the nodes; what numbers and counters are called
 *   line.c, messages.c      one line as words; datagrams and echo messages
 *   slots.c                 which slot is free
 *   told.c, told_echo.c     the timeline as it is printed
 *   meaning.c               what each copy names
 *   replies.c               the replies that came back
 *   expect.c, books.c       what a scenario expects; counters and ledger
 *   foretold.c, beside.c    at which take each entry goes out; what a mission
 *                           is told by two nodes
 *   copies.c                how many copies a flood makes
 *   answers.c               echo requests are answered
 *   hearing.c               what arrives is heard, by single calls or batches
 *   net.c                   datagrams on their way between the nodes
 *   settings.c, wires.c     the words that set up; those that befall a link
 *   sends.c, events.c       the word that sends; those that step and tell
 */
#include "words.h"

#include <errno.h>
#include <stdio.h>
#include <string.h>

#include "beside.h"
#include "copies.h"
#include "events.h"
#include "expect.h"
#include "foretold.h"
#include "line.h"
#include "sends.h"
#include "settings.h"
#include "wires.h"

/* Characters of a line, its end not counted. */
#define MOST_LINE 1000

static const struct {
    const char *word;
    void (*perform)(void);
    bool of_the_net;
} WORDS[] = {
    {"node", set_node, true},         {"port", set_port, true},
    {"link", set_link, true},         {"route", set_route, true},
    {"group", set_group, true},       {"path", set_path, true},
    {"lifetime", set_lifetime, true}, {"echo-drop", set_echo_drop, true},
    {"fresh", set_fresh, true},       {"hold", wire_hold, true},
    {"release", wire_release, true},  {"cut", wire_cut, true},
    {"mend", wire_mend, true},        {"send", event_send, false},
    {"take", event_take, false},      {"sweep", event_sweep, false},
    {"step", event_step, false},      {"run", event_run, false},
    {"wait", event_wait, false},      {"scene", event_scene, false},
    {"say", event_say, false},        {"quiet", event_quiet, false},
    {"loud", event_loud, false},      {"foretell", foretell, false},
    {"beside", beside, false},        {"copies", copies, false},
    {"expect", expect, false},
};

static void perform_line(bool net_only)
{
    static const char EXPECTED[] =
        "node, port, link, route, group, path, lifetime, echo-drop, fresh, "
        "hold, release, cut, mend, send, take, sweep, step, run, wait, scene, "
        "say, quiet, loud, foretell, beside, copies or expect";

    for (size_t i = 0; i < sizeof WORDS / sizeof *WORDS; i++) {
        if (line_is(WORDS[i].word)) {
            if (WORDS[i].of_the_net || !net_only)
                WORDS[i].perform();
            return;
        }
    }
    line_refuse(EXPECTED, line_word(EXPECTED));
}

/* The scene asked for is this one, or has been; the next one ends it. */
static bool is_over(const char *scene, bool *begun)
{
    static const char WORD[] = "scene ";
    char line[MOST_LINE];

    line_copy(line, sizeof line);
    if (scene == NULL || strncmp(line, WORD, strlen(WORD)) != 0)
        return false;
    if (*begun)
        return true;
    *begun = strncmp(line + strlen(WORD), scene, strlen(scene)) == 0;
    return false;
}

/* Whether the scene asked for was there. */
static bool perform_file(FILE *file, const struct performance *asked)
{
    static char text[MOST_LINE + 2];
    bool begun = asked->scene == NULL;
    unsigned number = 0;

    while (fgets(text, sizeof text, file) != NULL) {
        bool any = line_begin(++number, text);

        if (strchr(text, '\n') == NULL && !feof(file))
            line_refuse("a text line of at most 1000 characters", "another");
        if (any && is_over(asked->scene, &begun))
            break;
        if (any)
            perform_line(asked->net_only);
    }
    return begun;
}

static int complain(const struct performance *asked, const char *what)
{
    fprintf(stderr, "%s: %s: %s\n", asked->program, asked->file, what);
    return 2;
}

int words_perform(const struct performance *asked)
{
    FILE *file = fopen(asked->file, "r");
    bool unread, begun;

    if (file == NULL)
        return complain(asked, strerror(errno));
    line_file(asked->program, asked->file);
    begun = perform_file(file, asked);
    unread = ferror(file) != 0;
    fclose(file);
    if (unread)
        return complain(asked, "could not be read");
    return begun ? 0 : complain(asked, "there is no such scene");
}
