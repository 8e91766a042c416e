/*
 * pieces.c: what is lent. The pieces that last are lent to each call; where a
 * call is to be lent another length, a copy is cut or lengthened, so that what
 * stands is not lost.
 *
 * The awkward case is the piece that is not lent at all, the other mission's
 * state: it is compared after every call too.
 */
#include "pieces.h"

#include <string.h>

#include "draw.h"
#include "lent.h"
#include "numbers.h"
#include "table.h"

static struct soak_lent board, missions[HJ_MISSIONS], routes, octets, output;
static struct soak_lent other_board, other_mission, other_routes;
static struct soak_lent lists[SOAK_LISTS];

/* Those that the call at hand is lent. */
static struct {
    struct soak_lent *board, *mission, *routes;
} lent;

static bool make_lists(void)
{
    bool made = true;

    for (int i = 0; i < SOAK_LISTS; i++)
        made = made && soak_lent_make(&lists[i], SOAK_MOST_LISTED *
                                                     sizeof(hj_verdict));
    return made;
}

bool pieces_make(void)
{
    const size_t words = SOAK_MOST_WORDS * sizeof(uint32_t);
    const size_t records = SOAK_MOST_RECORDS * sizeof(hj_record);

    return make_lists() && soak_lent_make(&board, sizeof(hj_board)) &&
           soak_lent_make(&missions[0], sizeof(hj_mission)) &&
           soak_lent_make(&missions[1], sizeof(hj_mission)) &&
           soak_lent_make(&routes, records) &&
           soak_lent_make(&other_board, words) &&
           soak_lent_make(&other_mission, words) &&
           soak_lent_make(&other_routes, records) &&
           soak_lent_make(&octets, SOAK_MOST_OCTETS) &&
           soak_lent_make(&output, SOAK_MOST_OUTPUT);
}

/* Octets of any one value. */
static void lend_filled(struct soak_lent *piece, size_t count,
                        struct random *random)
{
    bool fenced = random_one_in(random, 2);

    soak_lent_begin(piece, count, fenced, (uint8_t)random_below(random, 256));
}

void pieces_begin(uint32_t places, struct random *random)
{
    lend_filled(&board, sizeof(hj_board), random);
    lend_filled(&missions[0], sizeof(hj_mission), random);
    lend_filled(&missions[1], sizeof(hj_mission), random);
    soak_lent_begin(&routes, places * sizeof(hj_record),
                    random_one_in(random, 2), 0);
}

/* ---- What the call is lent ----------------------------------------------- */

void pieces_lend(struct soak_call *call, const struct world *world)
{
    call->mission = world->mission;
    call->board_words = HJ_BOARD_WORDS;
    call->mission_words = HJ_MISSION_WORDS;
    call->records = routes.octets / sizeof(hj_record);
    lent.board = &board;
    lent.mission = &missions[call->mission];
    lent.routes = &routes;
}

/* A copy of a piece, so long; what is beyond it is of one value. */
static struct soak_lent *lend_other(struct soak_lent *other,
                                    const struct soak_lent *of, size_t count,
                                    struct random *random)
{
    soak_lent_begin(other, count, random_one_in(random, 2), 1);
    memcpy(other->at, of->at, count < of->octets ? count : of->octets);
    soak_lent_keep(other);
    return other;
}

void pieces_lend_other_list(struct soak_call *call, const struct world *world,
                            struct random *random)
{
    static size_t next;
    size_t count = next++ % (MOST_LISTS + 2);
    hj_record *records;

    if (count > MOST_LISTS)
        count = random_below(random, SOAK_MOST_RECORDS + 1);
    lent.routes = lend_other(&other_routes, &routes,
                             count * sizeof(hj_record), random);
    records = (hj_record *)(void *)other_routes.at;
    for (uint32_t i = 0; i < 4 && count > 0; i++)
        soak_draw_record(&records[random_below(random, (uint32_t)count)],
                         world, random);
    soak_lent_keep(&other_routes);
    call->records = count;
}

/* The next length in turn, but the right one; the last one stands for any that
 * is longer. */
static size_t next_wrong(size_t *next, size_t right, size_t most,
                         struct random *random)
{
    size_t words = (*next)++ % (most + 2);

    if (words == right)
        words = (*next)++ % (most + 2);
    return words <= most
               ? words
               : most + random_below(random,
                                     (uint32_t)(SOAK_MOST_WORDS - most));
}

static void lend_wrong_board(struct soak_call *call, struct random *random)
{
    static size_t next;

    call->board_words =
        next_wrong(&next, HJ_BOARD_WORDS, MOST_BOARDS, random);
    lent.board = lend_other(&other_board, &board,
                            call->board_words * sizeof(uint32_t), random);
}

static void lend_wrong_mission(struct soak_call *call, struct random *random)
{
    static size_t next;

    call->mission_words =
        next_wrong(&next, HJ_MISSION_WORDS, MOST_MISSIONS, random);
    lent.mission = lend_other(&other_mission, &missions[call->mission],
                              call->mission_words * sizeof(uint32_t), random);
}

void pieces_lend_wrong(struct soak_call *call, const struct world *world,
                       struct random *random)
{
    enum call_lent takes = call_facts[call->which].lent;
    enum call_lent wrong = takes & LENT_BM;

    pieces_lend(call, world);
    if (wrong == LENT_BM && !random_one_in(random, 4))
        wrong = random_one_in(random, 2) ? LENT_B : LENT_M;
    if (wrong & LENT_B)
        lend_wrong_board(call, random);
    if (wrong & LENT_M)
        lend_wrong_mission(call, random);
    if (takes == LENT_R || ((takes & LENT_R) && random_one_in(random, 8)))
        pieces_lend_other_list(call, world, random);
}

/* A piece to be read. */
static void lend_content(struct soak_lent *piece, const void *content,
                         size_t count, struct random *random)
{
    soak_lent_begin(piece, count, random_one_in(random, 2), 0);
    if (count > 0)
        memcpy(piece->at, content, count);
    soak_lent_keep(piece);
}

static void lend_lists(const struct soak_batch *batch, struct random *random)
{
    const size_t *counts = batch->counts;

    lend_content(&lists[LIST_LENGTHS], batch->lengths,
                 counts[LIST_LENGTHS] * sizeof *batch->lengths, random);
    lend_content(&lists[LIST_PORTS], batch->ports,
                 counts[LIST_PORTS] * sizeof *batch->ports, random);
    lend_content(&lists[LIST_SLOTS], batch->slots,
                 counts[LIST_SLOTS] * sizeof *batch->slots, random);
    lend_content(&lists[LIST_SECONDS], batch->seconds,
                 counts[LIST_SECONDS] * sizeof *batch->seconds, random);
    lend_filled(&lists[LIST_ANSWERS],
                counts[LIST_ANSWERS] * sizeof(hj_verdict), random);
}

void pieces_lend_octets(const struct soak_call *call, struct random *random)
{
    lend_content(&octets, call->octets, call->count, random);
    lend_filled(&output, call->room, random);
    if (call->which == CALL_RECEIVE_MANY)
        lend_lists(&call->batch, random);
}

static struct soak_pieces seen_by(void *piece(const struct soak_lent *),
                                  const struct soak_call *call)
{
    struct soak_pieces pieces = {{(hj_board *)piece(lent.board),
                                  call->board_words,
                                  (hj_mission *)piece(lent.mission),
                                  call->mission_words,
                                  (hj_record *)piece(lent.routes),
                                  call->records},
                                 (uint8_t *)piece(&octets),
                                 (uint8_t *)piece(&output),
                                 {NULL}};

    for (int i = 0; i < SOAK_LISTS && call->which == CALL_RECEIVE_MANY; i++)
        pieces.lists[i] = piece(&lists[i]);
    return pieces;
}

struct soak_pieces pieces_lent(const struct soak_call *call)
{
    return seen_by(soak_lent_piece, call);
}

struct soak_pieces pieces_due(const struct soak_call *call)
{
    return seen_by(soak_lent_due, call);
}

static bool lists_are_due(void)
{
    bool due = true;

    for (int i = 0; i < SOAK_LISTS; i++)
        due = due && soak_lent_is_due(&lists[i]);
    return due;
}

const char *pieces_changed(const struct soak_call *call)
{
    if (!soak_lent_is_due(lent.board) || !soak_lent_is_due(&board))
        return "the words of the board, or those around it";
    if (!soak_lent_is_due(lent.mission) || !soak_lent_is_due(&missions[0]) ||
        !soak_lent_is_due(&missions[1]))
        return "the words of a mission's state, or those around it";
    if ((call_facts[call->which].lent & LENT_R) != 0 &&
        !soak_lent_is_due(lent.routes))
        return "the records of the list, or what is around it";
    if (call->which == CALL_RECEIVE_MANY && !lists_are_due())
        return "a list of a batch, or what is around it";
    if (!soak_lent_is_due(&output))
        return "the output's octets, or those around it";
    return soak_lent_is_due(&octets) ? NULL : "the octets lent to be read";
}

/* ---- What stands, changed ------------------------------------------------ */

void pieces_write_record(const struct world *world, struct random *random)
{
    hj_record *records = (hj_record *)(void *)routes.at;
    uint32_t count = (uint32_t)(routes.octets / sizeof *records);

    if (count == 0)
        return;
    soak_draw_record(&records[random_below(random, count)], world, random);
    soak_lent_keep(&routes);
}

/* A word of the board or of a mission's state; often a queue's count, the last
 * second, a pair's, or whose a port or a state is. */
static uint32_t *some_word(struct soak_lent **piece, struct random *random)
{
    uint32_t way = random_below(random, 8);
    struct soak_lent *mission = &missions[random_below(random, HJ_MISSIONS)];
    uint32_t at = random_below(random, HJ_MISSION_WORDS);

    *piece = way < 3 ? &board : mission;
    if (way == 0)
        at = SOAK_PORT_WORDS * (1 + random_below(random, HJ_PORTS));
    else if (way < 3)
        at = random_below(random, HJ_BOARD_WORDS);
    else if (way == 3)
        at = 0;
    else if (way == 4)
        at = SOAK_QUEUES_AT +
             SOAK_QUEUE_WORDS * random_below(random, HJ_PORTS) + HJ_QUEUE;
    else if (way == 5) /* the first pairs, which are held first */
        at = SOAK_LAST_SECOND_AT +
             random_below(random, 1 + 4 * HJ_PAIR_NUMBERS);
    return (uint32_t *)soak_lent_piece(*piece) + at;
}

void pieces_change_word(const struct world *world, struct random *random)
{
    struct soak_lent *piece;
    uint32_t *word = some_word(&piece, random);

    *word = random_one_in(random, 2)
                ? soak_odd_number(world, random)
                : *word ^ 1u << random_below(random, 32);
    soak_lent_keep(piece);
}

/* Random words, or numbers that mean something somewhere, or one number in
 * all words. */
static void fill(struct soak_lent *piece, const struct world *world,
                 struct random *random)
{
    uint32_t *words = (uint32_t *)(void *)piece->at;
    uint32_t way = random_below(random, 8);
    uint32_t same = soak_odd_number(world, random);

    for (size_t i = 0; i < piece->octets / sizeof *words; i++) {
        if (way == 0)
            words[i] = same;
        else if (way < 3)
            words[i] = (uint32_t)random_number(random);
        else if (way < 5)
            words[i] = random_below(random, 40);
        else
            words[i] = soak_odd_number(world, random);
    }
    soak_lent_keep(piece);
}

/* A number that is a mission's is too seldom drawn, so some words get one. */
static void own_garbage(struct random *random)
{
    uint32_t *of_board = (uint32_t *)soak_lent_piece(&board);

    if (random_one_in(random, 3))
        return;
    for (uint32_t port = 1; port <= HJ_PORTS; port++) {
        of_board[SOAK_PORT_WORDS * port] = random_below(random, 3);
        if (random_one_in(random, 2)) /* an MTU that room can be lent for */
            of_board[SOAK_PORT_WORDS * port - 1] = random_below(random, 200);
    }
    for (uint32_t i = 0; i < HJ_MISSIONS; i++) {
        *(uint32_t *)soak_lent_piece(&missions[i]) = random_below(random, 3);
        soak_lent_keep(&missions[i]);
    }
    soak_lent_keep(&board);
}

/* Pairs that may come again, in places of any words: some free, with whatever
 * else stands there, some held, older than what comes and younger. */
static void pair_garbage(hj_mission *mission, const struct world *world,
                         uint32_t second, struct random *random)
{
    for (uint32_t i = 0; i < HJ_PAIRS; i++) {
        uint32_t *pair = mission->words + SOAK_PAIRS_AT + HJ_PAIR_NUMBERS * i;
        uint32_t way = random_below(random, 6);

        if (way == 0)
            pair[0] = 0;
        if (way > 2)
            continue;
        if (way > 0)
            soak_draw_pair(pair, world, random);
        pair[4] = second - random_below(random, 20) + 5;
    }
}

/* A last second far ahead shuts out every datagram, so some are not. */
static void remember_garbage(const struct world *world, struct random *random)
{
    for (uint32_t i = 0; i < HJ_MISSIONS; i++) {
        hj_mission *mission = (hj_mission *)soak_lent_piece(&missions[i]);
        uint32_t second = world->seconds[i];

        if (random_one_in(random, 4))
            continue;
        mission->words[SOAK_LAST_SECOND_AT] =
            second - (second > 9 ? random_below(random, 10) : second);
        if (random_one_in(random, 2))
            pair_garbage(mission, world, second, random);
        soak_lent_keep(&missions[i]);
    }
    if (random_one_in(random, 2)) {
        hj_board *of_all = (hj_board *)soak_lent_piece(&board);

        of_all->words[SOAK_LIFETIME_AT] = random_below(random, 10);
        of_all->words[SOAK_ECHO_DROP_AT] = 0;
        soak_lent_keep(&board);
    }
}

void pieces_fill_with_garbage(const struct world *world,
                              struct random *random)
{
    fill(&board, world, random);
    for (uint32_t i = 0; i < HJ_MISSIONS; i++)
        fill(&missions[i], world, random);
    if (random_one_in(random, 2))
        fill(&routes, world, random);
    own_garbage(random);
    remember_garbage(world, random);
}
