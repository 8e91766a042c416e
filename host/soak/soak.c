/*
 * soak: random calls on the library, each looked at from outside.
 *
 *     soak [seed=N] [calls=N]
 *
 * The run goes round by threes. First a history: a fresh board and two fresh
 * missions, settings, and then datagrams, batches of them, echo requests,
 * takes, sweeps and other calls of both, each made on host/plain too, which
 * must answer the same; at its end every number that can be asked is compared,
 * and the ledger of each mission's ports must close. Then what it left, with a
 * few words changed, and calls on it. Then garbage words and records, and calls
 * on them. One call in eight is lent words of a wrong number, one in six of
 * those with a list another list, of the next length in turn, and others are
 * lent nothing. The items of a batch are made as single calls too, on a copy.
 *
 * After each call the board, both missions' states, the list, the octets and
 * the output, with the guards around them, must be what is due (rules.c). The
 * first call that fails is said, with the seed, and ends the run with status 1.
 * The same seed makes the same calls, so that it fails again.
 *
 * The awkward case is a call that reads beyond what was lent. No guard shows
 * that. So half of the pieces end where memory that can be read ends, and the
 * machine's own signal is reported as the failure of the call at hand.
 */
#define _POSIX_C_SOURCE 200809L

#include <inttypes.h>
#include <signal.h>
#include <stdio.h>
#include <string.h>
#include <unistd.h>

#include "call.h"
#include "draw.h"
#include "floods.h"
#include "list.h"
#include "ours.h"
#include "pieces.h"
#include "plain.h"
#include "rules.h"
#include "shared/floods.h"
#include "shared/options.h"
#include "shared/settings.h"
#include "singles.h"
#include "table.h"

#define HISTORY_CALLS 400
#define OTHER_CALLS 120
#define CALLS_ON_ONE 40 /* of the other states */

/* ---- The run ------------------------------------------------------------- */

static uint64_t seed;
static struct random randoms = {0};
static struct random *const random = &randoms;
static struct world world;
static struct soak_tally tally;
static struct soak_call call;
static struct soak_answer answer;
/* What the verdicts and takes of a history said, by mission and port. */
static struct {
    uint64_t took, dropped, handed_out;
} books[HJ_MISSIONS][HJ_PORTS];

static bool fail(const char *what)
{
    printf("soak: FAILED: seed=%" PRIu64 ", call %" PRIu64 ": %s\n", seed,
           tally.calls, what);
    printf("soak: the call: ");
    soak_say_call(&call);
    return false;
}

static void fail_by_signal(int number)
{
    (void)number;
    fail("read or wrote beyond what was lent");
    fflush(stdout);
    _exit(1);
}

/* ---- One call ------------------------------------------------------------ */

static void count_call(void)
{
    enum call_lent lent = call_facts[call.which].lent;

    tally.calls++;
    tally.made[call.which]++;
    if (lent & LENT_R)
        tally.lists[call.records]++;
    for (int i = 0; i < SOAK_LISTS && call.which == CALL_RECEIVE_MANY; i++)
        tally.listed[i][call.batch.counts[i]]++;
    if (soak_words_right(&call))
        return;
    tally.wrong_made[call.which]++;
    if ((lent & LENT_B) && call.board_words != HJ_BOARD_WORDS)
        tally.wrong_boards[call.board_words]++;
    if ((lent & LENT_M) && call.mission_words != HJ_MISSION_WORDS)
        tally.wrong_missions[call.mission_words]++;
}

/* Of a datagram that was not refused. */
static void count_flood(void)
{
    uint64_t onward = answer.parts[TOLD_ONWARD];
    plain_header came;

    if (plain_header_read(call.octets, call.count, &came) != PLAIN_GOOD ||
        !soak_is_flooded(&came))
        return;
    tally.floods_kept += onward == HJ_SENT_ON || onward == HJ_NO_ROUTE ||
                         onward == HJ_HOPS_USED_UP || onward == HJ_TOO_BIG ||
                         onward == HJ_QUEUES_FULL;
    tally.floods_held += onward == HJ_NOT_ASKED &&
                         answer.parts[TOLD_LOCAL] == HJ_LOCAL_NO;
}

/* Each item, and whether one that was refused stands between others. */
static void count_items(void)
{
    size_t items = soak_batch_items(&call);
    bool refused = false;

    for (size_t i = 0; i < items; i++) {
        uint32_t ended = hj_ended_by(answer.items[i]);

        if (ended < CALL_NUMBERS)
            tally.item_ends[ended]++;
        refused = refused || (ended != HJ_DONE && i > 0 && i + 1 < items);
    }
    tally.items += items;
    tally.batches_heard += items > 0;
    tally.refused_between += refused;
}

/* Odd numbers are a failure that was found before. */
static void count_end(void)
{
    if (!soak_words_right(&call))
        return;
    if (answer.parts[0] < CALL_NUMBERS)
        tally.ends[call.which][answer.parts[0]]++;
    if (call.which == CALL_RECEIVE && answer.parts[0] == HJ_DONE) {
        tally.onward[answer.parts[TOLD_ONWARD]]++;
        count_flood();
    }
    if (call.which == CALL_ECHO && answer.parts[0] == HJ_DONE)
        tally.replies[answer.parts[TOLD_ONWARD]]++;
    if (call.which == CALL_RECEIVE_MANY)
        count_items();
    if (call.which == CALL_RECEIVE && answer.parts[TOLD_TOOK] != 0)
        tally.sent[soak_sent_as(&answer)]++;
}

static bool plain_agrees(const struct soak_pieces *due)
{
    struct soak_answer plain;

    soak_plain(&call, due->lent.routes, due->output, &plain);
    return memcmp(&plain, &answer, sizeof plain) == 0;
}

/* The call, on what is lent. */
static bool make_on_pieces(bool compared)
{
    struct soak_pieces lent, due;
    const char *wrong;

    count_call();
    pieces_lend_octets(&call, random);
    lent = pieces_lent(&call);
    due = pieces_due(&call);
    if (call.which == CALL_RECEIVE_MANY)
        soak_make_singles(&call, &due);
    soak_ours(&call, &lent, &answer);
    wrong = soak_rules(&call, &answer, &due);
    if (wrong == NULL && call.which == CALL_RECEIVE_MANY)
        wrong = soak_unlike_singles(&call, &answer, &lent);
    if (wrong != NULL)
        return fail(wrong);
    count_end();
    if ((compared || !call_has_state(call.which)) && !plain_agrees(&due))
        return fail("plain answers otherwise");
    wrong = pieces_changed(&call);
    return wrong == NULL || fail(wrong);
}

static bool make_wrong_length(void)
{
    pieces_lend_wrong(&call, &world, random);
    return make_on_pieces(false);
}

static void note_copies(uint64_t took, uint64_t dropped)
{
    for (uint32_t port = 0; port < HJ_PORTS; port++) {
        books[call.mission][port].took += took >> port & 1;
        books[call.mission][port].dropped += dropped >> port & 1;
    }
}

static void note_in_books(void)
{
    if (call.which == CALL_RECEIVE || call.which == CALL_ECHO)
        note_copies(answer.parts[TOLD_TOOK], answer.parts[TOLD_DROPPED]);
    for (size_t i = 0; i < HJ_MOST_ITEMS; i++) /* 0 where there is none */
        note_copies(hj_took(answer.items[i]), hj_dropped(answer.items[i]));
    if (call.which == CALL_TAKE && answer.parts[0] == HJ_DONE)
        books[call.mission][call.numbers[0]].handed_out++;
    if (call.which == CALL_FRESH_MISSION && answer.parts[0] == HJ_DONE)
        memset(books[call.mission], 0, sizeof *books);
}

static void count_search(void)
{
    struct soak_pieces lent = pieces_lent(&call);
    const hj_record *longest =
        list_longest(&lent.lent, call.numbers[0], true);
    bool found = answer.parts[1] != 0;

    tally.found[found]++;
    tally.over[found] += longest != NULL && longest->availability != HJ_UP;
}

static uint32_t held_now(void)
{
    struct soak_pieces lent = pieces_lent(&call);

    return soak_held(lent.lent.mission);
}

static bool make(enum soak_state sort)
{
    bool other_list = (call_facts[call.which].lent & LENT_R) != 0 &&
                      random_one_in(random, 6);
    uint32_t held;

    pieces_lend(&call, &world);
    held = held_now();
    if (other_list)
        pieces_lend_other_list(&call, &world, random);
    if (!make_on_pieces(sort == SOAK_HISTORY))
        return false;
    tally.calls_on[sort] += call_has_state(call.which);
    if (call.which == CALL_SWEEP && answer.parts[0] == HJ_DONE)
        tally.swept[held_now() < held]++;
    if (call.which == CALL_SEARCH && sort == SOAK_HISTORY &&
        answer.parts[0] == HJ_DONE)
        count_search();
    if (answer.parts[0] == HJ_DONE && !other_list)
        soak_note(&call, &world);
    note_in_books();
    return true;
}

/* ---- Which call ---------------------------------------------------------- */

/* One of the calls whose kinds are from one kind up to another. */
static enum call draw_of(enum call_kind from, enum call_kind to)
{
    enum call found[CALLS];
    uint32_t count = 0;

    for (int which = 0; which < CALLS; which++) {
        if (call_facts[which].kind >= from && call_facts[which].kind <= to)
            found[count++] = (enum call)which;
    }
    return found[random_below(random, count)];
}

static enum call draw_which(void)
{
    uint32_t draw = random_below(random, 100);

    if (random_one_in(random, 400))
        return draw_of(KIND_FRESH, KIND_FRESH);
    if (draw < 12)
        return draw_of(KIND_STATELESS, KIND_STATELESS);
    if (draw < 24)
        return draw_of(KIND_SETTING, KIND_CLEARING);
    if (draw < 36)
        return draw_of(KIND_LOOK, KIND_LOOK);
    if (draw < 50)
        return CALL_TAKE;
    if (draw < 53)
        return CALL_RECEIVE_MANY;
    return draw < 64 ? CALL_ECHO : CALL_RECEIVE;
}

/* What comes to a relay whose queues are to fill. */
static enum call draw_arriving(void)
{
    if (random_one_in(random, 8))
        return CALL_ECHO;
    return random_one_in(random, 16) ? CALL_RECEIVE_MANY : CALL_RECEIVE;
}

static bool make_any(enum soak_state sort)
{
    world.mission = random_below(random, HJ_MISSIONS);
    if (random_one_in(random, 24))
        pieces_write_record(&world, random);
    if (random_one_in(random, 8)) {
        soak_draw_call(&call, draw_of(KIND_FRESH, KIND_LOOK), &world, random);
        return make_wrong_length();
    }
    soak_draw_call(&call, draw_which(), &world, random);
    return make(sort);
}

/* ---- Histories ----------------------------------------------------------- */

static bool make_look(enum call which, uint32_t number, uint32_t word)
{
    call.which = which;
    call.numbers[0] = number;
    call.numbers[1] = word;
    return make(SOAK_HISTORY);
}

/* What a reading call is asked for: the prefix of a route, or its place; or the
 * number. */
static uint32_t looked_for(enum call which, uint32_t n)
{
    enum call_object object = call_facts[which].object;

    if (object == ON_ADDRESS)
        return n < WORLD_ROUTES ? world.routes[n].prefix : 0xffffffff;
    if (object == ON_ROUTE)
        return n < WORLD_ROUTES ? world.routes[n].place : world.places;
    return n;
}

/* The words of what a reading call asks for by this number; of a pair's place
 * that is free only the first, since there are so many. */
static uint32_t words_at(enum call which, uint32_t n)
{
    static const uint32_t WORDS[CALL_OBJECTS] = {
        [ON_PORT] = HJ_PORT_NUMBERS,   [ON_ROUTE] = HJ_ROUTE_NUMBERS,
        [ON_GROUP] = HJ_GROUP_NUMBERS, [ON_PATH] = HJ_PATH_NUMBERS,
        [ON_PAIR] = HJ_PAIR_NUMBERS};

    if (which == CALL_PAIR_WORD) {
        pieces_lend(&call, &world);
        if (!soak_is_held(pieces_lent(&call).lent.mission, n))
            return 0;
    }
    return WORDS[call_facts[which].object];
}

/* Every number of one call, and one beyond the last; so for its words. */
static bool compare_by(enum call which)
{
    uint8_t numbers = call_facts[which].numbers;
    uint32_t most = numbers == 0 ? 0
                    : call_facts[which].object == ON_ROUTE
                        ? WORLD_ROUTES
                        : soak_places(which, &world);
    bool good = true;

    for (uint32_t n = 0; good && n <= most; n++) {
        uint32_t words = words_at(which, n);

        for (uint32_t word = 0; good && word <= words; word++)
            good = make_look(which, looked_for(which, n), word);
    }
    return good;
}

/* All calls that only read, for each mission. */
static bool compare_all(void)
{
    bool good = true;

    for (int which = 0; good && which < CALLS * HJ_MISSIONS; which++) {
        enum call look = (enum call)(which / HJ_MISSIONS);

        world.mission = which % HJ_MISSIONS;
        if (call_facts[look].kind == KIND_LOOK &&
            (world.mission == 0 || call_facts[look].lent & LENT_M))
            good = compare_by(look);
    }
    return good;
}

/* Took and dropped are handed out, waiting and dropped. The answers' dropped
 * copies, over all ports, are the counter's. */
static bool close_books(void)
{
    uint64_t dropped = 0;

    for (uint32_t port = 0; port < HJ_PORTS; port++) {
        if (!make_look(CALL_WAITING, port, 0))
            return false;
        if (books[world.mission][port].took !=
            books[world.mission][port].handed_out + answer.parts[1])
            return fail("the port's ledger does not close");
        dropped += books[world.mission][port].dropped;
        tally.ledgers++;
    }
    if (!make_look(CALL_COUNTER, HJ_OUT_DISCARDS, 0))
        return false;
    return answer.parts[1] == dropped || fail("the dropped copies' counter");
}

static bool close_all_books(void)
{
    bool good = true;

    for (world.mission = 0; good && world.mission < HJ_MISSIONS;
         world.mission++)
        good = close_books();
    world.mission = 0;
    return good;
}

static bool make_setting(enum call which)
{
    soak_draw_setting(&call, which, &world, random);
    return make(SOAK_HISTORY);
}

/* So many of them, of either mission. */
static bool make_settings(enum call which, uint32_t count)
{
    bool good = true;

    while (good && count-- > 0) {
        world.mission = random_below(random, HJ_MISSIONS);
        good = make_setting(which);
    }
    return good;
}

static bool begin_missions(void)
{
    bool good = true;

    for (uint32_t i = 0; good && i < HJ_MISSIONS; i++) {
        world.mission = i;
        good = make_setting(CALL_FRESH_MISSION);
    }
    return good;
}

/* Few pairs or more than there are places, seldom flooded or mostly. */
static void begin_floods(void)
{
    static const uint32_t PAIRS[] = {6, 20, WORLD_PAIRS};
    static const uint32_t OF_100[] = {5, 20, 80};
    uint32_t pairs = PICK(PAIRS);

    floods_begin(&world, pairs, PICK(OF_100), random);
}

static bool begin_history(void)
{
    static const uint32_t PLACES[] = {8, 64, 64, 64, 64, 200, HJ_ROUTES};
    enum nets nets = (enum nets)random_below(random, ALL_NETS + 1);

    world_begin(&world, nets, PICK(PLACES), random);
    begin_floods();
    pieces_begin(world.places, random);
    memset(books, 0, sizeof books);
    return make_settings(CALL_FRESH_BOARD, 1) && begin_missions() &&
           make_settings(CALL_SET_ROUTER, 1) &&
           make_settings(CALL_SET_LIFETIME, 1) &&
           make_settings(CALL_SET_PORT, 2 + random_below(random, 20)) &&
           make_settings(CALL_SET_ROUTE, random_below(random, 60)) &&
           make_settings(CALL_SET_GROUP, random_below(random, 24)) &&
           make_settings(CALL_SET_PATH, random_below(random, 24));
}

/* Some are left with little taken, so that queues fill. */
static bool run_history(void)
{
    uint32_t calls = random_one_in(random, 3) ? 4 * HISTORY_CALLS
                                              : HISTORY_CALLS;
    bool takes = !random_one_in(random, 3);
    bool good = begin_history();

    for (uint32_t i = 0; good && i < calls; i++) {
        if (!takes && i % 4 != 0) {
            world.mission = random_one_in(random, 3);
            soak_draw_call(&call, draw_arriving(), &world, random);
            good = make(SOAK_HISTORY);
        } else {
            good = make_any(SOAK_HISTORY);
        }
    }
    tally.states[SOAK_HISTORY]++;
    return good && compare_all() && close_all_books();
}

/* ---- Other states -------------------------------------------------------- */

static bool run_changed(void)
{
    bool good = true;

    for (uint32_t i = 0; good && i < OTHER_CALLS; i++) {
        if (i % CALLS_ON_ONE == 0) {
            for (uint32_t n = 1 + random_below(random, 8); n > 0; n--)
                pieces_change_word(&world, random);
            tally.states[SOAK_CHANGED]++;
        }
        good = make_any(SOAK_CHANGED);
    }
    return good;
}

static bool run_garbage(void)
{
    bool good = true;

    for (uint32_t i = 0; good && i < OTHER_CALLS; i++) {
        if (i % CALLS_ON_ONE == 0) {
            pieces_fill_with_garbage(&world, random);
            tally.states[SOAK_GARBAGE]++;
        }
        good = make_any(SOAK_GARBAGE);
    }
    return good;
}

/* ---- The whole ----------------------------------------------------------- */

static bool run_three(void)
{
    return run_history() && run_changed() && run_garbage();
}

static bool prepare(void)
{
    struct sigaction action;

    memset(&action, 0, sizeof action);
    action.sa_handler = fail_by_signal;
    return sigaction(SIGSEGV, &action, NULL) == 0 &&
           sigaction(SIGBUS, &action, NULL) == 0 && pieces_make();
}

static const struct program PROGRAM = {
    "soak",
    "usage: soak [--help | --version] [seed=N] [calls=N]\n"
    "\n"
    "Makes random calls of the library, 5000000 where no number is given, on\n"
    "good words and garbage, and looks at each from outside (docs/SOAK.md).\n"
    "The seed, 1 where none is given, begins the random numbers.\n"
    "\n"
    "Status: 0 not one failure; 1 a call failed, or too little was met; 2 bad\n"
    "usage, no memory, or the output failed.\n",
    true,
};

int main(int count, char **arguments)
{
    struct setting settings[] = {{"seed", 1}, {"calls", 5000000}};
    bool good = true;
    int status = options_status(&PROGRAM, arguments + (count > 0));

    if (status != OPTIONS_GO_ON)
        return status;
    if (!settings_take(&PROGRAM, settings, LENGTH(settings), arguments + 1))
        return 2;
    if (!prepare()) {
        fputs("soak: no memory\n", stderr);
        return 2;
    }
    seed = settings[0].value;
    random->state = seed;
    while (good && tally.calls < settings[1].value)
        good = run_three();
    if (!good)
        return 1;
    printf("soak: seed=%" PRIu64 "\n", seed);
    soak_say_tally(&tally);
    if (!soak_is_whole(&tally)) {
        puts("soak: FAILED: too few calls to meet all that is to be met");
        return 1;
    }
    printf("soak: %" PRIu64 " calls, not one failure\n", tally.calls);
    return options_end(&PROGRAM, 0);
}
