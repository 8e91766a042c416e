/*
 * batches.c: `batch` lines. The items are datagrams as `receive` lines have
 * them, refused ones among them, and mostly few. Many go to where the one
 * before went, or are that one again, since an item is to see what those before
 * it did, and a route that was looked up may serve the next one too.
 *
 * One batch in four is to be refused, in one or two of several ways, each at
 * its edge: a list is one number longer or shorter than the others, the lengths
 * sum to one more than the octets, or the room is one octet short. The awkward
 * case is a sum that is right again modulo 2^32.
 *
 * A line with its answer has at most 100,000 characters, so the octets of all
 * items are bounded. An item that they have no room for is cut short.
 */
#include "batches.h"

#include <string.h>

#include "arrivals.h"
#include "line.h"
#include "ways.h"

#define MOST_ITEMS 64
#define ROOM 400 /* of an item */
#define MOST_OCTETS 20000
#define CUT_OCTETS 8 /* of an item that is cut short */

enum { LENGTHS, PORTS, SLOTS, SECONDS, LISTS };

static struct batch {
    uint32_t items; /* that were drawn */
    uint32_t numbers[LISTS][MOST_ITEMS + 2];
    struct line_list lists[LISTS]; /* as they are written */
    uint32_t room;
    size_t count;
    uint8_t octets[MOST_OCTETS + MOST_ITEMS * CUT_OCTETS + 16];
} batch;

/* ---- The items ----------------------------------------------------------- */

/* The same addresses, and other elements behind them. */
static void vary(struct form *form, struct random *random)
{
    static const uint8_t HOPS[] = {1, 2, 64};

    form->precedence = random_below(random, 16);
    form->hop_count = PICK(HOPS);
    form->has_checksum = random_one_in(random, 2);
    form->control_octets = form_shortest_control(form);
}

static void draw_octets(struct arrival *arrival, const struct world *world,
                        struct random *random)
{
    bool is_first = batch.items == 0;

    if (!is_first && random_one_in(random, 5))
        return; /* the one before, again */
    if (is_first || random_one_in(random, 2))
        arrival_form(arrival, world, random);
    else
        vary(&arrival->datagram.form, random);
    arrival_write(arrival, world, random);
    if (random_one_in(random, 24))
        arrival->datagram.count = 0;
}

static void draw_item(struct arrival *arrival, struct world *world,
                      struct random *random)
{
    size_t octets;

    arrival_begin(arrival, world, random);
    draw_octets(arrival, world, random);
    octets = arrival->datagram.count;
    if (batch.count + octets > MOST_OCTETS && octets > CUT_OCTETS)
        octets = CUT_OCTETS;
    memcpy(batch.octets + batch.count, arrival->datagram.octets, octets);
    batch.count += octets;
    batch.numbers[LENGTHS][batch.items] = (uint32_t)octets;
    batch.numbers[PORTS][batch.items] = arrival->port;
    batch.numbers[SLOTS][batch.items] = arrival->slot;
    batch.numbers[SECONDS][batch.items] = arrival->second;
    batch.items++;
}

static uint32_t choose_items(struct random *random)
{
    static const uint32_t EDGES[] = {0, 0, 1, 1, 63, 64, 64, 65};

    return random_one_in(random, 4) ? PICK(EDGES)
                                    : 2 + random_below(random, 8);
}

static void draw_items(struct world *world, struct random *random)
{
    static struct arrival arrival;
    uint32_t items = choose_items(random);

    batch.items = 0;
    batch.count = 0;
    while (batch.items < items)
        draw_item(&arrival, world, random);
    for (int list = 0; list < LISTS; list++) {
        batch.numbers[list][items] = random_below(random, 8);
        batch.lists[list].numbers = batch.numbers[list];
        batch.lists[list].count = items;
    }
}

/* ---- What is lent -------------------------------------------------------- */

/* Room and octets enough, and often more than enough. */
static void lend(struct random *random)
{
    static const uint32_t MORE[] = {1, 50, 399, 400, 4000};
    uint32_t more = 1 + random_below(random, 16);

    batch.room = ROOM * batch.items;
    if (random_one_in(random, 6))
        batch.room += PICK(MORE);
    if (!random_one_in(random, 4))
        return;
    random_octets(random, batch.octets + batch.count, more);
    batch.count += more;
}

static size_t sum(void)
{
    size_t octets = 0;

    for (uint32_t i = 0; i < batch.items; i++)
        octets += batch.numbers[LENGTHS][i];
    return octets;
}

/* One more than the octets, by a length or by the octets themselves; or as much
 * more as 32 bits hold, so that two lengths of them are nothing more. */
static void spoil_sum(struct random *random)
{
    uint32_t item = random_below(random, batch.items);
    uint32_t other = (item + 1) % batch.items;
    uint32_t *lengths = batch.numbers[LENGTHS];

    switch (random_below(random, 4)) {
    case 0:
        lengths[item] += (uint32_t)(batch.count - sum()) + 1;
        break;
    case 1:
        if (sum() > 0)
            batch.count = sum() - 1;
        break;
    case 2:
        lengths[other] = random_below(random, 3);
        lengths[item] = 0xffffffff;
        break;
    default:
        lengths[item] += 0x80000000;
        lengths[other] += 0x80000000;
    }
}

static void spoil_list(struct random *random)
{
    struct line_list *list = &batch.lists[random_below(random, LISTS)];

    if (list->count > 0 && !random_one_in(random, 3))
        list->count--;
    else
        list->count++;
}

static void spoil_room(struct random *random)
{
    uint32_t enough = ROOM * batch.items;

    batch.room = random_one_in(random, 2) ? enough - 1
                                          : random_below(random, enough);
}

static void spoil(struct random *random)
{
    uint32_t chosen = ways(3, random);

    if (batch.items == 0)
        chosen = 1;
    if (chosen & 1)
        spoil_list(random);
    if (chosen & 2)
        spoil_sum(random);
    if (chosen & 4)
        spoil_room(random);
}

void history_batch(struct world *world, struct random *random)
{
    draw_items(world, random);
    lend(random);
    if (random_one_in(random, 4))
        spoil(random);
    line_lists(CALL_RECEIVE_MANY, batch.room, batch.lists, batch.octets,
               batch.count, world->mission);
}
