/*
 * relay.c: what was reached of the relay: each number at each call, each reason
 * of the local half, each line of the onward half, what searches found, each
 * counter's movement. The lists are in relay_lists.h. An item of a batch is a
 * receipt like any other.
 *
 * Which line of the rules decided is not in the answer. It is told from a view
 * of the relay, kept from the answers (view.h), and is used for nothing but
 * these counts.
 */
#include "relay.h"

#include <inttypes.h>
#include <stdio.h>
#include <string.h>

#include "batches.h"
#include "echoes.h"
#include "floods.h"
#include "relay_lists.h"
#include "shared/items.h"
#include "table.h"

#define COUNTERS 18

static struct view view = {.places = TRACE_RECORDS};

static uint32_t number(struct trace_word word)
{
    return (uint32_t)answered_number(UINT32_MAX, word);
}

/* ---- Conditions ---------------------------------------------------------- */

static bool fills(const struct view *v, uint32_t took)
{
    for (uint32_t port = 0; port < VIEW_PORTS; port++) {
        if ((took >> port & 1) != 0 &&
            view_now(v)->waits[port] == VIEW_QUEUE - 1)
            return true;
    }
    return false;
}

/* The record that the setting would write. */
static struct view_route written(const struct asked *s)
{
    struct view_route route = {1,       s->n[1], s->n[2], s->n[3],
                               s->n[4], s->n[5], s->n[6] % TRACE_MISSIONS};

    return route;
}

/* The availability of the same entry at the place that holds it, where that is
 * another; 0 for none. */
static uint32_t same_route(const struct view *v, const struct asked *s)
{
    struct view_route route = written(s);
    uint32_t holder = list_holder(v, &route);

    return holder < v->places && holder != s->n[0]
               ? v->routes[holder].availability
               : 0;
}

/* Whether the same prefix and mask stand elsewhere, with another mission or
 * refused, and so do not count. */
static bool unlike_route(const struct view *v, const struct asked *s,
                         bool other)
{
    for (uint32_t place = 0; place < v->places; place++) {
        const struct view_route *route = &v->routes[place];
        bool refused = list_refusal(v, route) != 0;

        if (place != s->n[0] && route->filled != 0 &&
            route->prefix == s->n[1] && route->mask == s->n[2] &&
            (other ? !refused && route->mission != s->n[6]
                   : refused && route->mission == s->n[6]))
            return true;
    }
    return false;
}

/* ---- Tallies ------------------------------------------------------------- */

#define NAME(name, condition) name,
#define COUNT(name, condition) *reached++ += (condition) ? 1 : 0;

static const char *const REFUSED_NAMES[] = {REFUSED_RECEIPT_LIST(NAME)};
static const char *const LOCAL_NAMES[] = {LOCAL_LIST(NAME)};
static const char *const WANTED_NAMES[] = {WANTED_LIST(NAME)};
static const char *const COPIES_NAMES[] = {COPIES_LIST(NAME)};
static const char *const REWRITTEN_NAMES[] = {REWRITTEN_LIST(NAME)};
static const char *const PORT_NAMES[] = {PORT_LIST(NAME)};
static const char *const ROUTE_NAMES[] = {ROUTE_LIST(NAME)};
static const char *const ENTRY_NAMES[] = {ENTRY_LIST(NAME)};
static const char *const SEARCH_NAMES[] = {SEARCH_LIST(NAME)};
static const char *const RECORD_NAMES[] = {RECORD_LIST(NAME)};

static struct {
    uint64_t calls;
    uint64_t numbers[CALLS][CALL_NUMBERS];
    uint64_t local[CALL_NUMBERS], onward[CALL_NUMBERS];
    uint64_t waiting_none, waiting_some, waiting_full, waiting_no_port;
    uint64_t precedence[16];
    uint64_t moved[COUNTERS];
    uint64_t of_refused[LENGTH(REFUSED_NAMES)];
    uint64_t of_local[LENGTH(LOCAL_NAMES)];
    uint64_t of_wanted[LENGTH(WANTED_NAMES)];
    uint64_t of_copies[LENGTH(COPIES_NAMES)];
    uint64_t of_rewritten[LENGTH(REWRITTEN_NAMES)];
    uint64_t of_port[LENGTH(PORT_NAMES)];
    uint64_t of_route[LENGTH(ROUTE_NAMES)];
    uint64_t of_entry[LENGTH(ENTRY_NAMES)];
    uint64_t of_search[LENGTH(SEARCH_NAMES)];
    uint64_t of_record[LENGTH(RECORD_NAMES)];
} tally;

/* At the last counters line of each mission. */
static uint32_t counters[TRACE_MISSIONS][COUNTERS];

/* ---- Receipts ------------------------------------------------------------ */

static const char *deciding_line(const struct naming *named, bool flooded)
{
    if (named->own || named->limited)
        return "own";
    if (!view.router)
        return "host";
    if (flooded)
        return "flood";
    if (view_ours(named))
        return "broadcast";
    if (named->multicast)
        return "multicast";
    return named->by_path ? "path" : "route";
}

static uint32_t wanted_ports(const struct receipt *r)
{
    if (strcmp(r->line, "broadcast") == 0 ||
        (strcmp(r->line, "flood") == 0 && view_keeps(r->onward)))
        return r->named.others;
    if (strcmp(r->line, "multicast") == 0 && r->named.group != NULL)
        return r->named.group->send & r->named.others;
    if (strcmp(r->line, "path") == 0 && r->named.path != NULL)
        return r->named.path->send & r->named.others;
    if (strcmp(r->line, "route") == 0 && r->named.found.route != NULL)
        return 1u << r->named.found.route->port % VIEW_PORTS;
    return 0;
}

static void look_at_elements(struct receipt *r)
{
    static const uint32_t ASKED[] = {
        [1] = CHECKSUM, [2] = HOP_COUNT, [4] = CHECKSUM | HOP_COUNT};
    uint32_t capabilities = route_of(r)->capabilities;

    r->there = (r->datagram.has_hop_count ? HOP_COUNT : 0u) |
               (r->datagram.has_checksum ? CHECKSUM : 0u);
    if (strcmp(r->line, "route") == 0 && capabilities < LENGTH(ASKED))
        r->added = ASKED[capabilities] & ~r->there;
}

/* As long as it came, or as it is rewritten. */
static uint32_t header_for(const struct receipt *r, uint32_t port)
{
    const struct arriving *came = &r->datagram;
    bool widened = (r->foreign >> port & 1) != 0;

    if (!widened && r->added == 0)
        return came->header;
    return came->header - came->control + came->shortest + r->added +
           (widened ? 6 : 0);
}

static void look_at_ports(struct receipt *r)
{
    uint32_t domain = view.ports[r->arrival % VIEW_PORTS].address >> 8;

    for (uint32_t i = 0; i < VIEW_PORTS; i++) {
        const struct view_port *port = &view.ports[i];

        if (!r->datagram.extended && port->address >> 8 != domain)
            r->foreign |= 1u << i;
        r->headers[i] = header_for(r, i);
        r->sizes[i] = r->headers[i] + r->datagram.length - r->datagram.header;
        if (r->sizes[i] > port->mtu || r->sizes[i] > 8191)
            r->small |= 1u << i;
        if (view_now(&view)->waits[i] == VIEW_QUEUE)
            r->full |= 1u << i;
    }
}

static void count_halves(const struct receipt *r)
{
    const struct view *v = &view;
    uint64_t *reached = tally.of_local;

    LOCAL_LIST(COUNT)
    reached = tally.of_wanted;
    WANTED_LIST(COUNT)
    reached = tally.of_copies;
    COPIES_LIST(COUNT)
    reached = tally.of_rewritten;
    REWRITTEN_LIST(COUNT)
    tally.local[r->local % CALL_NUMBERS]++;
    tally.onward[r->onward % CALL_NUMBERS]++;
}

static void count_receipt(const struct receipt *r)
{
    const struct view *v = &view;
    uint64_t *reached = tally.of_refused;

    REFUSED_RECEIPT_LIST(COUNT)
    count_second(v, r);
    if (r->refusal != 0 || r->arrival >= VIEW_PORTS)
        return;
    count_halves(r);
    if (r->flooded)
        count_flood(v, r);
}

static void look_at_pair(struct receipt *r)
{
    struct view_pair pair = view_pair_of(&view, r->arrival, &r->datagram);

    r->flooded = r->datagram.routing == ARRIVING_FLOODED;
    if (r->flooded)
        r->pair = view_pair_find(&view, &pair);
}

static bool read_receipt(const struct trace_call *call,
                         const struct trace_call *answer, bool is_item)
{
    static uint8_t octets[TRACE_MOST_OCTETS];
    struct receipt r = {0};

    if (!trace_octets(call->words[4], octets, &r.lent))
        return false;
    r.arrival = number(call->words[1]);
    r.room = number(call->words[3]);
    r.second = number(call->words[5]);
    r.refusal = number(answer->words[0]);
    r.local = number(answer->words[1]);
    r.onward = number(answer->words[2]);
    r.took = number(answer->words[3]);
    r.datagram = arriving_read(octets, r.lent);
    r.named = view_name(&view, r.arrival, &r.datagram);
    look_at_pair(&r);
    r.line = deciding_line(&r.named, r.flooded);
    r.wanted = wanted_ports(&r);
    look_at_elements(&r);
    look_at_ports(&r);
    count_receipt(&r);
    if (is_item)
        count_item(&view, &r);
    return r.refusal != 0 || r.arrival < VIEW_PORTS;
}

/* The view notes an item before the next is looked at. */
static bool read_item(enum call of, const struct trace_call *call,
                      const struct trace_call *answer)
{
    bool known = read_receipt(call, answer, true);

    if (known)
        view_note(&view, of, call, answer);
    return known;
}

static bool read_batch(const struct trace_call *call,
                       const struct trace_call *answer)
{
    return count_batch(&view, call, answer) &&
           items_each(call, answer, read_item);
}

/* ---- Searches ------------------------------------------------------------ */

static void look_at_routes(uint32_t address, uint32_t place, struct sought *f)
{
    f->at = list_find(&view, address);
    f->place = place;
    f->route = view.routes[place];
    for (uint32_t i = 0; i < view.places; i++) {
        const struct view_route *route = &view.routes[i];

        if (route->filled == 0 || route->mission != view.mission)
            continue;
        f->filled++;
        f->matching += (address & route->mask) == route->prefix &&
                       route->availability == 1;
        f->as_long += i != place && route->mask == f->route.mask;
    }
}

static void count_sought(const struct sought *f)
{
    const struct view *v = &view;
    uint64_t *reached = tally.of_search;

    SEARCH_LIST(COUNT)
}

/* `-`, a place with its ones and its port, or 21. One that is not the view's
 * is no good answer, whoever gives it. */
static bool count_search(const struct trace_call *call,
                         const struct trace_call *answer)
{
    struct sought f = {.refused = view.places > TRACE_RECORDS};
    uint32_t place = 0, address;

    f.found = !f.refused && !trace_is(answer->words[0], "-");
    if (f.found)
        place = number(answer->words[0]);
    if (!trace_address(call->words[1], &address) ||
        place >= TRACE_MOST_RECORDS || answer->count != (f.found ? 3 : 1))
        return false;
    if (f.found)
        f.ones = number(answer->words[1]);
    if (!f.refused)
        look_at_routes(address, place, &f);
    count_sought(&f);
    return f.refused ? trace_is(answer->words[0], "21")
                     : f.at.route == (f.found ? &view.routes[place] : NULL);
}

/* ---- Other calls --------------------------------------------------------- */

static void count_setting(enum call of, const struct asked *s)
{
    const struct view *v = &view;
    uint64_t *reached = tally.of_port;

    if (of == CALL_SET_PORT) {
        PORT_LIST(COUNT)
    }
    reached = tally.of_route;
    if (of == CALL_SET_ROUTE) {
        ROUTE_LIST(COUNT)
    }
    reached = tally.of_entry;
    if (of == CALL_SET_GROUP || of == CALL_SET_PATH) {
        ENTRY_LIST(COUNT)
    }
}

static bool count_number(enum call of, const struct trace_call *call,
                         const struct trace_call *answer)
{
    struct asked asked = {number(answer->words[0]), {0}};

    if (!trace_numbers(call->words + 1, call_facts[of].arguments, asked.n))
        return false;
    tally.numbers[of][asked.number % CALL_NUMBERS]++;
    count_setting(of, &asked);
    if (of == CALL_SWEEP)
        count_sweep(&view, asked.n[0], asked.number);
    if (of == CALL_TAKE && asked.number == 0)
        tally.precedence[number(answer->words[2]) % 16]++;
    if (of == CALL_ECHO)
        return count_echo(&view, call, answer);
    if (of == CALL_RECEIVE_MANY)
        return read_batch(call, answer);
    return of != CALL_RECEIVE || read_receipt(call, answer, false);
}

static bool count_waiting(const struct trace_call *answer)
{
    uint32_t waits;

    if (trace_is(answer->words[0], "!21")) {
        tally.waiting_no_port++;
        return true;
    }
    waits = number(answer->words[0]);
    tally.waiting_none += waits == 0;
    tally.waiting_full += waits == VIEW_QUEUE;
    tally.waiting_some += waits > 0 && waits < VIEW_QUEUE;
    return waits <= VIEW_QUEUE;
}

static bool count_counters(const struct trace_call *answer)
{
    if (answer->count != COUNTERS)
        return false;
    for (size_t i = 0; i < COUNTERS; i++) {
        uint32_t value = number(answer->words[i]);

        tally.moved[i] += value != counters[view.mission][i];
        counters[view.mission][i] = value;
    }
    return true;
}

static bool count_record(const struct trace_call *call)
{
    uint32_t n[CALL_MOST_NUMBERS];
    struct view_route route;
    const struct view *v = &view;
    uint64_t *reached = tally.of_record;
    uint32_t refusal;

    if (!trace_numbers(call->words + 1, call_facts[LINE_RECORD].arguments, n))
        return false;
    memcpy(&route, n + 2, sizeof route);
    refusal = list_refusal(v, &route);
    RECORD_LIST(COUNT)
    return true;
}

static bool count_call(enum call of, const struct trace_call *call,
                       const struct trace_call *answer)
{
    switch (of) {
    case LINE_NEW:
        memset(counters, 0, sizeof counters);
        return true;
    case LINE_RECORDS:
        return true;
    case LINE_RECORD:
        return count_record(call);
    case CALL_WAITING:
        return count_waiting(answer);
    case CALL_COUNTER:
        return count_counters(answer);
    case CALL_SEARCH:
        return count_search(call, answer);
    case CALL_PAIR_WORD:
        return count_pairs(&view, answer);
    default:
        return count_number(of, call, answer);
    }
}

/* Looks at the call before the view notes what it did. */
bool count_relay_line(enum call of, const struct trace_call *call,
                      const struct trace_call *answer)
{
    bool known;

    view_begin(&view, of, call);
    known = count_call(of, call, answer);
    if (known) {
        tally.calls++;
        view_note(&view, of, call, answer);
    }
    return known;
}

uint64_t relay_calls(void)
{
    return tally.calls;
}

/* ---- The table ----------------------------------------------------------- */

/* Each number that the call may end in, which it must have. */
static void say_numbers(enum call of)
{
    char row[64];

    for (uint32_t i = 0; i < CALL_NUMBERS; i++) {
        snprintf(row, sizeof row, "%s: %" PRIu32, call_facts[of].word, i);
        if (call_ends_in(of, i))
            say_row(row, tally.numbers[of][i], LEAST);
        else if (tally.numbers[of][i] > 0)
            say_failed(row);
    }
}

static void say_calls(void)
{
    puts("The relay's calls:");
    for (int of = 0; of < CALLS; of++) {
        if (call_sets((enum call)of) && call_facts[of].word != NULL)
            say_numbers((enum call)of);
    }
    say_numbers(CALL_TAKE);
    say_numbers(CALL_RECEIVE);
    say_numbers(CALL_RECEIVE_MANY);
    say_numbers(CALL_ECHO);
}

static void say_halves(void)
{
    static const char *const LOCAL[CALL_NUMBERS] = {
        [0] = "local: 0, no", [1] = "local: 1, delivered",
        [26] = "local: 26"};
    static const char *const ONWARD[CALL_NUMBERS] = {
        [0] = "onward: 0, not asked", [1] = "onward: 1, sent on",
        [9] = "onward: 9",            [10] = "onward: 10",
        [11] = "onward: 11",          [13] = "onward: 13",
        [14] = "onward: 14",          [15] = "onward: 15",
        [30] = "onward: 30"};

    say_answers(LOCAL, tally.local, CALL_NUMBERS);
    say_answers(ONWARD, tally.onward, CALL_NUMBERS);
    puts("The local half:");
    say_list(LOCAL_NAMES, tally.of_local, LENGTH(LOCAL_NAMES));
    puts("The onward half, by the line that decided:");
    say_list(WANTED_NAMES, tally.of_wanted, LENGTH(WANTED_NAMES));
    puts("Copies:");
    say_list(COPIES_NAMES, tally.of_copies, LENGTH(COPIES_NAMES));
    puts("Headers kept and rewritten:");
    say_list(REWRITTEN_NAMES, tally.of_rewritten, LENGTH(REWRITTEN_NAMES));
}

static void say_settings(void)
{
    puts("Settings:");
    say_list(PORT_NAMES, tally.of_port, LENGTH(PORT_NAMES));
    say_list(ROUTE_NAMES, tally.of_route, LENGTH(ROUTE_NAMES));
    say_list(ENTRY_NAMES, tally.of_entry, LENGTH(ENTRY_NAMES));
}

static void say_searches(void)
{
    puts("Records written as they stand:");
    say_list(RECORD_NAMES, tally.of_record, LENGTH(RECORD_NAMES));
    puts("Searches:");
    say_list(SEARCH_NAMES, tally.of_search, LENGTH(SEARCH_NAMES));
}

static void say_queues(void)
{
    char row[64];

    puts("Queues:");
    say_row("waiting: none", tally.waiting_none, LEAST);
    say_row("waiting: 1 to 31", tally.waiting_some, LEAST);
    say_row("waiting: 32", tally.waiting_full, LEAST);
    say_row("waiting: 21, no such port", tally.waiting_no_port, LEAST);
    for (int i = 0; i < 16; i++) {
        snprintf(row, sizeof row, "taken, of precedence %d", i);
        say_row(row, tally.precedence[i], LEAST);
    }
}

static void say_counters(void)
{
    static const char *const MOVED[COUNTERS] = {
        "npInReceives moved",    "npInBadLength moved",
        "npInBadVersion moved",  "npInBadAddress moved",
        "npInBadChecksum moved", "unsupported moved",
        "npInAddrErrors moved",  "npInUnknownProtos moved",
        "npInDelivers moved",    "npForwHopDiscard moved",
        "npForwDatagrams moved", "npOutNoRoutes moved",
        "npOutDiscards moved",   "left domain moved",
        "too big moved",         "flood unmarked moved",
        "pairs held moved",      "npOutRequests moved"};

    puts("Counters:");
    say_list(MOVED, tally.moved, COUNTERS);
}

void say_relay(void)
{
    say_calls();
    puts("Refused receipts:");
    say_list(REFUSED_NAMES, tally.of_refused, LENGTH(REFUSED_NAMES));
    say_halves();
    say_floods();
    say_batches();
    say_echoes();
    say_settings();
    say_searches();
    say_queues();
    say_counters();
}
