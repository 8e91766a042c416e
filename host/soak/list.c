/*
 * list.c: the list, judged record by record as docs/STATES.md says it. A record
 * that counts has a good mask and a port under 8, whatever the words are, so
 * that nothing of what a search tells is left open.
 */
#include "list.h"

static const uint32_t *port_at(const hj_board *board, uint32_t port)
{
    return board->words + 1 + 5 * port;
}

static bool is_set_up(const hj_board *board, uint32_t port)
{
    return port < HJ_PORTS && port_at(board, port)[0] != 0;
}

bool list_has_port(const hj_board *board, uint32_t mission, uint32_t port)
{
    return mission < HJ_MISSIONS && is_set_up(board, port) &&
           port_at(board, port)[4] == mission;
}

static uint32_t refusal(const hj_board *board, const hj_record *x)
{
    uint32_t zeros = ~x->mask;

    if (!is_set_up(board, x->port))
        return HJ_BAD_NUMBER;
    if ((zeros & (zeros + 1)) != 0 || (x->prefix & zeros) != 0)
        return HJ_BAD_MASK;
    if (x->availability < HJ_UP || x->availability > HJ_OUT ||
        x->capabilities == 3 || x->capabilities > HJ_CAPABLE_BOTH ||
        !list_has_port(board, x->mission, x->port))
        return HJ_BAD_CODE;
    return HJ_DONE;
}

/* The place of the lowest that holds the entry and is not refused; the list's
 * count where none does. */
static size_t holder(const struct library_lent *lent, const hj_record *x)
{
    size_t place = 0;

    for (; place < lent->route_count; place++) {
        const hj_record *other = &lent->routes[place];

        if (other->filled != 0 && other->prefix == x->prefix &&
            other->mask == x->mask && other->mission == x->mission &&
            refusal(lent->board, other) == HJ_DONE)
            break;
    }
    return place;
}

const hj_record *list_longest(const struct library_lent *lent,
                              uint32_t address, bool of_all)
{
    const hj_record *best = NULL;

    for (size_t place = 0; place < lent->route_count; place++) {
        const hj_record *x = &lent->routes[place];

        if (x->filled != 0 && (address & x->mask) == x->prefix &&
            x->mission == lent->mission->words[0] &&
            (of_all || x->availability == HJ_UP) &&
            refusal(lent->board, x) == HJ_DONE && holder(lent, x) == place &&
            (best == NULL || x->mask > best->mask))
            best = x;
    }
    return best;
}

uint32_t list_setting(const struct library_lent *lent, const uint32_t *n)
{
    hj_record x = {1, n[1], n[2], n[3], n[4], n[5], n[6]};
    uint32_t refused = refusal(lent->board, &x);
    size_t held = holder(lent, &x);

    if (refused != HJ_DONE)
        return refused;
    return held < lent->route_count && held != n[0] ? HJ_SAME_ENTRY : HJ_DONE;
}
