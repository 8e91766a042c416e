/*
 * lent.c: one output for all calls, since they come one after the other. The
 * awkward case is an answer that claims more octets than were lent: of a header
 * that was built what was lent is shown, of headers sent on none, and both are
 * marked.
 */
#include "lent.h"

#include <string.h>

#include "harpjuniper.h"

#define GUARD 64

static uint8_t space[GUARD + LENT_MOST_ROOM + GUARD];

uint8_t *lent_output(size_t room)
{
    memset(space, LENT_UNTOUCHED, GUARD + room + GUARD);
    return space + GUARD;
}

static bool untouched(size_t from, size_t to)
{
    while (from < to && space[from] == LENT_UNTOUCHED)
        from++;
    return from == to;
}

void lent_answer(struct text *answer, size_t room, size_t written)
{
    size_t shown = written < room ? written : room;

    text_octets(answer, space + GUARD, shown);
    if (shown < written || !untouched(0, GUARD) ||
        !untouched(GUARD + shown, GUARD + room + GUARD))
        text_string(answer, " !");
}

/* Adds the octets from one place to another, but not those at the end that did
 * not change. */
static void add_stretch(struct text *answer, size_t from, size_t to)
{
    while (to > from && space[to - 1] == LENT_UNTOUCHED)
        to--;
    text_octets(answer, space + from, to - from);
}

bool lent_rest_is_kept(size_t from, size_t room)
{
    return untouched(0, GUARD) &&
           untouched(GUARD + from, GUARD + room + GUARD);
}

void lent_headers(struct text *answer, size_t from, size_t room,
                  uint32_t ports, const uint32_t *header_octets)
{
    bool good = ports == 0 || room >= HJ_OUTPUT_ROOM;
    size_t begin = GUARD + from;
    size_t ended = begin; /* the last header */
    const char *before = "";

    for (uint32_t port = 0; port < HJ_PORTS; port++) {
        size_t at = begin + HJ_HEADER_ROOM * port;

        if (room < HJ_OUTPUT_ROOM || (ports >> port & 1) == 0)
            continue;
        text_string(answer, before);
        add_stretch(answer, at, at + HJ_HEADER_ROOM);
        good = good && header_octets[port] <= HJ_HEADER_ROOM &&
               untouched(ended, at);
        ended = at + header_octets[port];
        before = ",";
    }
    if (*before == '\0')
        text_string(answer, "-");
    if (!good || !untouched(ended, begin + room))
        text_string(answer, " !");
}
