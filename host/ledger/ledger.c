/*
 * ledger: recounts an answered trace from its calls and answers alone, and
 * fails (status 1) where the books do not balance.
 *
 *     ledger < ANSWERED
 *
 * Each mission has its own books. For each port: what took an entry, one copy
 * per port and receipt and each with a header, and the replies to echo
 * requests, is what was handed out by takes and what waits (`waiting` lines).
 * Each entry handed out is the oldest of the highest precedence that waits, by
 * a plain list. Each header says what the octets that came said (headers.c),
 * and each reply what answers its request (replies.c). Between two frees of a
 * pair at most one of its floods goes on, and what is kept is what a `pairs`
 * line says (floods.c). Each item of a batch is a receipt, and a batch is
 * refused by 27 exactly where its lists, octets or room do not fit. Each
 * counter of a `counters` line is what the answers since `new` add up to.
 *
 * The awkward counter is npOutDiscards: an answer gives the ports that took an
 * entry, not those that dropped theirs. Only a port with 32 waiting drops one,
 * so the answer bounds it: at most one for each full port, and at least one
 * with 15. Where a counters line is read, its value is what is counted on from.
 */
#include <inttypes.h>
#include <stdio.h>
#include <stdlib.h>
#include <string.h>

#include "floods.h"
#include "headers.h"
#include "replies.h"
#include "shared/answered.h"
#include "shared/arriving.h"
#include "shared/items.h"
#include "shared/options.h"

#define PORTS 8
#define QUEUE 32
#define COUNTERS 18
#define OUT_DISCARDS 12
#define OUT_REQUESTS 17

struct entry {
    uint32_t slot, precedence;
};

static struct book {
    struct {
        uint64_t took, handed_out, waits;
        struct entry entries[QUEUE];
    } ports[PORTS];
    uint32_t counters[COUNTERS]; /* but for npOutDiscards */
    uint32_t least_discards, most_discards;
} books[TRACE_MISSIONS];

static struct book *book = books; /* of the mission whose call it is */

static struct {
    uint64_t receipts, takes, counters, waiting, copies, exact, sweeps, pairs;
    uint64_t echoes, replies, batches;
} seen;

static bool balanced = true;

static void expect(bool holds, const char *what, uint64_t due, uint64_t found)
{
    static unsigned said;

    if (holds)
        return;
    balanced = false;
    if (said++ < 20)
        printf("ledger: FAILED: %s: due %" PRIu64 ", found %" PRIu64
               " (receipt %" PRIu64 ")\n",
               what, due, found, seen.receipts);
}

static uint32_t number(struct trace_word word)
{
    return (uint32_t)answered_number(UINT32_MAX, word);
}

/* ---- Receipts ------------------------------------------------------------ */

/* Ahead of the first entry with lower precedence, else last. */
static void enter(uint32_t port, struct entry newcomer)
{
    struct entry *entries = book->ports[port].entries;
    uint64_t waits = book->ports[port].waits;
    uint64_t at = 0;

    expect(waits < QUEUE, "a full port took an entry", QUEUE, waits);
    if (waits >= QUEUE)
        return;
    while (at < waits && entries[at].precedence >= newcomer.precedence)
        at++;
    memmove(entries + at + 1, entries + at, (waits - at) * sizeof *entries);
    entries[at] = newcomer;
    book->ports[port].waits++;
    book->ports[port].took++;
    seen.copies++;
}

static uint32_t full_ports(void)
{
    uint32_t full = 0;

    for (uint32_t port = 0; port < PORTS; port++)
        full += book->ports[port].waits == QUEUE;
    return full;
}

/* The counter of each number that ends the call or a half; 0 for none. 12 is
 * not given. */
static const uint8_t COUNTER_OF[CALL_NUMBERS] = {
    [1] = 1, [2] = 2,   [3] = 1,   [4] = 3,   [5] = 4,   [6] = 3,   [7] = 3,
    [8] = 5, [9] = 6,   [10] = 9,  [11] = 11, [13] = 13, [14] = 14, [26] = 7,
    [28] = 15, [30] = 16};

static void count(uint32_t refusal)
{
    if (refusal < CALL_NUMBERS && COUNTER_OF[refusal] != 0)
        book->counters[COUNTER_OF[refusal]]++;
}

static void count_receipt(uint32_t refusal, uint32_t local, uint32_t onward)
{
    if (refusal == 16 || refusal == 17 || refusal == 21 || refusal == 29)
        return;
    book->counters[0]++;
    count(refusal);
    if (refusal != 0)
        return;
    book->counters[8] += local == 1;
    book->counters[10] += onward == 1;
    if (local != 1)
        count(local);
    if (onward != 1)
        count(onward);
}

/* Before the entries enter, as fullness is what it was before the call. */
static void bound_discards(uint32_t refusal, uint32_t onward)
{
    uint32_t full = full_ports();

    if (refusal != 0 || (onward != 1 && onward != 15))
        return;
    book->most_discards += full;
    book->least_discards += onward == 15;
    if (onward == 15)
        expect(full > 0, "15 without a full port", 1, full);
}

static uint32_t ports_in(uint32_t set)
{
    uint32_t ports = 0;

    for (; set != 0; set &= set - 1)
        ports++;
    return ports;
}

/* Joined by commas, `-` for none. */
static uint32_t headers_in(struct trace_word out)
{
    uint32_t headers = !trace_is(out, "-");

    for (size_t i = 0; i < out.length; i++)
        headers += out.text[i] == ',';
    return headers;
}

static void check_headers(uint32_t arrival, const struct arriving *came,
                          uint32_t ports, struct trace_word out)
{
    const char *wrong = NULL;

    expect(headers_in(out) == ports_in(ports),
           "a header for each port that took", ports_in(ports),
           headers_in(out));
    if (headers_in(out) == ports_in(ports))
        wrong = headers_wrong(arrival, came, ports, out);
    expect(wrong == NULL, wrong, 0, 1);
}

static void check_floods(uint32_t arrival, uint32_t second,
                         const struct arriving *came,
                         const struct trace_call *answer)
{
    struct floods_receipt receipt = {
        .second = second,
        .source = headers_named(came, came->source, arrival),
        .came = came,
        .refusal = number(answer->words[0]),
        .local = number(answer->words[1]),
        .onward = number(answer->words[2])};
    const char *wrong =
        floods_receive((uint32_t)(book - books), &receipt);

    expect(wrong == NULL, wrong, 0, 1);
}

static bool book_receive(const struct trace_call *call,
                         const struct trace_call *answer)
{
    static uint8_t octets[TRACE_MOST_OCTETS];
    size_t length;
    struct arriving came;
    struct entry newcomer = {number(call->words[2]), 0};
    uint32_t refusal = number(answer->words[0]);
    uint32_t onward = number(answer->words[2]);
    uint32_t ports = number(answer->words[3]);

    seen.receipts++;
    count_receipt(refusal, number(answer->words[1]), onward);
    bound_discards(refusal, onward);
    expect((ports != 0) == (refusal == 0 && onward == 1),
           "ports exactly where sent on", onward, ports);
    if (!trace_octets(call->words[4], octets, &length))
        return false;
    came = arriving_read(octets, length);
    check_headers(number(call->words[1]), &came, ports, answer->words[4]);
    check_floods(number(call->words[1]), number(call->words[5]), &came,
                 answer);
    newcomer.precedence = came.precedence;
    for (uint32_t port = 0; port < PORTS; port++) {
        if (ports >> port & 1)
            enter(port, newcomer);
    }
    return true;
}

/* An item is a receipt, and no line of the trace. */
static bool book_item(enum call of, const struct trace_call *call,
                      const struct trace_call *answer)
{
    (void)of;
    return book_receive(call, answer);
}

/* 21 is of the list of routes, which has no book. */
static bool book_batch(const struct trace_call *call,
                       const struct trace_call *answer)
{
    uint32_t refusal = number(answer->words[0]);
    struct items_lent lent;

    seen.batches++;
    if (!items_lend(call, &lent))
        return false;
    expect(refusal == 21 || (refusal == 27) == !items_fit(&lent),
           "27 exactly where a batch does not fit", items_fit(&lent) ? 0 : 27,
           refusal);
    return items_each(call, answer, book_item);
}

/* ---- Echo requests ------------------------------------------------------- */

/* One reply, made and then sent, refused or dropped. */
static void count_reply(uint32_t onward)
{
    book->counters[OUT_REQUESTS]++;
    if (onward != 1)
        count(onward);
    if (onward != 15)
        return;
    expect(full_ports() > 0, "15 without a full port", 1, 0);
    book->least_discards++;
    book->most_discards++;
}

static uint32_t port_in(uint32_t set)
{
    uint32_t port = 0;

    while (port < PORTS && (set >> port & 1) == 0)
        port++;
    return port;
}

static void book_reply(const struct trace_call *call,
                       const struct trace_call *answer, const uint8_t *octets,
                       size_t length)
{
    static uint8_t reply[TRACE_MOST_OCTETS];
    uint32_t port = port_in(number(answer->words[2]));
    struct entry newcomer = {number(call->words[2]), 0};
    const char *wrong;
    size_t count = 0;

    trace_octets(answer->words[3], reply, &count);
    wrong = reply_wrong(number(call->words[1]), octets, length, port, reply,
                        count);
    expect(wrong == NULL, wrong, 0, 1);
    newcomer.precedence = arriving_read(octets, length).precedence;
    enter(port, newcomer);
    seen.replies++;
}

static bool book_echo(const struct trace_call *call,
                      const struct trace_call *answer)
{
    static uint8_t octets[TRACE_MOST_OCTETS];
    uint32_t refusal = number(answer->words[0]);
    uint32_t onward = number(answer->words[1]);
    bool sent = refusal == 0 && onward == 1;
    size_t length;

    seen.echoes++;
    if (!trace_octets(call->words[4], octets, &length))
        return false;
    expect(ports_in(number(answer->words[2])) == sent,
           "one port exactly where a reply is sent", sent,
           ports_in(number(answer->words[2])));
    if (refusal == 0 && onward != 0)
        count_reply(onward);
    if (sent && port_in(number(answer->words[2])) < PORTS)
        book_reply(call, answer, octets, length);
    return true;
}

/* ---- Takes, sweeps, pairs, waiting, counters ----------------------------- */

static bool book_take(const struct trace_call *call,
                      const struct trace_call *answer)
{
    uint32_t port = number(call->words[1]);
    uint32_t refusal = number(answer->words[0]);
    struct entry *entries;

    seen.takes++;
    if (port >= PORTS)
        return refusal == 16;
    expect((book->ports[port].waits > 0) == (refusal == 0),
           "an entry exactly where one waits", book->ports[port].waits,
           refusal);
    if (refusal != 0 || book->ports[port].waits == 0)
        return true;
    entries = book->ports[port].entries;
    expect(entries[0].slot == number(answer->words[1]), "slot taken",
           entries[0].slot, number(answer->words[1]));
    expect(entries[0].precedence == number(answer->words[2]),
           "precedence taken", entries[0].precedence,
           number(answer->words[2]));
    memmove(entries, entries + 1, (QUEUE - 1) * sizeof *entries);
    book->ports[port].waits--;
    book->ports[port].handed_out++;
    return true;
}

static bool book_sweep(const struct trace_call *call,
                       const struct trace_call *answer)
{
    const char *wrong =
        floods_sweep((uint32_t)(book - books), number(call->words[1]),
                     number(answer->words[0]));

    seen.sweeps++;
    expect(wrong == NULL, wrong, 0, 1);
    return true;
}

static bool book_pairs(const struct trace_call *answer)
{
    seen.pairs++;
    expect(floods_are((uint32_t)(book - books), answer->words[0]),
           "the pairs that are kept", 0, 1);
    return true;
}

static bool book_waiting(const struct trace_call *call,
                         const struct trace_call *answer)
{
    uint32_t port = number(call->words[1]);
    uint32_t waiting;

    seen.waiting++;
    if (port >= PORTS)
        return trace_is(answer->words[0], "!21");
    waiting = number(answer->words[0]);
    expect(book->ports[port].took == book->ports[port].handed_out + waiting,
           "took = handed out + waiting", book->ports[port].took,
           book->ports[port].handed_out + waiting);
    return true;
}

static void check_discards(uint32_t found)
{
    expect(found - book->least_discards <=
               book->most_discards - book->least_discards,
           "npOutDiscards within its bounds", book->least_discards, found);
    seen.exact += book->least_discards == book->most_discards;
    book->least_discards = found;
    book->most_discards = found;
}

static bool book_counters(const struct trace_call *answer)
{
    static const char *const NAMES[COUNTERS] = {
        "npInReceives",    "npInBadLength",     "npInBadVersion",
        "npInBadAddress",  "npInBadChecksum",   "unsupported",
        "npInAddrErrors",  "npInUnknownProtos", "npInDelivers",
        "npForwHopDiscard", "npForwDatagrams",  "npOutNoRoutes",
        "npOutDiscards",   "left domain",       "too big",
        "flood unmarked",  "pairs held",        "npOutRequests"};

    seen.counters++;
    for (int i = 0; i < COUNTERS; i++) {
        uint32_t found = number(answer->words[i]);

        if (i == OUT_DISCARDS)
            check_discards(found);
        else
            expect(found == book->counters[i], NAMES[i], book->counters[i],
                   found);
    }
    return true;
}

/* ---- Lines --------------------------------------------------------------- */

/* Opens the book of the mission that the line ends with. */
static void open_book(enum call of, const struct trace_call *call)
{
    const char *arguments = of < LINES ? call_facts[of].arguments : NULL;

    if (arguments == NULL || *arguments == '\0' ||
        arguments[strlen(arguments) - 1] != 'M')
        return;
    book = &books[number(call->words[call->count - 1]) % TRACE_MISSIONS];
}

/* The port as it was set up. */
static bool note_port(const struct trace_call *call,
                      const struct trace_call *answer)
{
    uint32_t address;

    if (!trace_address(call->words[2], &address))
        return false;
    if (number(answer->words[0]) == 0)
        headers_note_port(number(call->words[1]), address);
    return true;
}

static bool note_lifetime(const struct trace_call *call,
                          const struct trace_call *answer)
{
    if (number(answer->words[0]) == 0)
        floods_set_lifetime(number(call->words[1]));
    return true;
}

/* Other words move nothing that is booked. */
static bool book_line(enum call of, const struct trace_call *call,
                      const struct trace_call *answer)
{
    open_book(of, call);
    switch (of) {
    case CALL_RECEIVE:
        return book_receive(call, answer);
    case CALL_RECEIVE_MANY:
        return book_batch(call, answer);
    case CALL_ECHO:
        return book_echo(call, answer);
    case CALL_TAKE:
        return book_take(call, answer);
    case CALL_WAITING:
        return book_waiting(call, answer);
    case CALL_COUNTER:
        return book_counters(answer);
    case CALL_SWEEP:
        return book_sweep(call, answer);
    case CALL_PAIR_WORD:
        return book_pairs(answer);
    case CALL_SET_PORT:
        return note_port(call, answer);
    case CALL_SET_LIFETIME:
        return note_lifetime(call, answer);
    case LINE_NEW:
        memset(books, 0, sizeof books);
        headers_begin();
        floods_begin();
        return true;
    default:
        return true;
    }
}

static const char HELP[] =
    "usage: ledger [--help | --version] < ANSWERED\n"
    "\n"
    "Recounts an answered trace (docs/TRACE.md) from its calls and answers\n"
    "alone, each item of a batch as a receipt: for each mission and port the\n"
    "copies taken, handed out and waiting, the order of what is handed out,\n"
    "what each header sent on and each reply says, the seconds and pairs of\n"
    "floods, and each counter.\n"
    "\n"
    "Status: 0 the books balance; 1 they do not, or a line has no good\n"
    "answer; 2 bad usage, or the output failed.\n";

int main(int count, char **arguments)
{
    static const struct program PROGRAM = {"ledger", HELP, false};
    int status = options_status(&PROGRAM, arguments + (count > 0));
    bool good;

    if (status != OPTIONS_GO_ON)
        return status;
    good = answered_lines(book_line);
    printf("ledger: %" PRIu64 " receipts, with those of %" PRIu64
           " batches, %" PRIu64 " echo lines, %" PRIu64 " replies, %" PRIu64
           " copies with these, %" PRIu64
           " takes, %" PRIu64 " waiting lines, %" PRIu64 " sweeps, %" PRIu64
           " pairs lines, %" PRIu64
           " counters lines (npOutDiscards exact in %" PRIu64 ")\n",
           seen.receipts, seen.batches, seen.echoes, seen.replies, seen.copies,
           seen.takes, seen.waiting, seen.sweeps, seen.pairs, seen.counters,
           seen.exact);
    if (!good || !balanced)
        puts("ledger: FAILED: the books do not balance");
    return options_end(&PROGRAM, good && balanced ? 0 : 1);
}
