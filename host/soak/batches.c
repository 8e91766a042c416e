/*
 * batches.c: batches. Most have few items; now and then each number of items
 * comes in turn, and each length of each list, whatever the others are, so that
 * none is left out. Some have lengths that sum to more than the octets, by one
 * or by so much that 32 bits wrap, and some too little room.
 *
 * The awkward case is the last octets that are lent: an item that they have no
 * room for is cut short.
 */
#include "batches.h"

#include <string.h>

#include "numbers.h"
#include "octets.h"
#include "table.h"

#define CUT_OCTETS 4 /* of an item that is cut short */

/* ---- Drawing ------------------------------------------------------------- */

static size_t draw_count(struct random *random)
{
    static size_t next;

    return random_one_in(random, 4) ? next++ % (MOST_LISTED + 1)
                                    : 1 + random_below(random, 6);
}

/* Often the one before again. */
static void draw_item(struct soak_call *item, bool is_first,
                      struct world *world, struct random *random)
{
    soak_draw_arrival(item, world, random);
    if (is_first || !random_one_in(random, 4))
        soak_draw_octets(item, world, random);
    if (random_one_in(random, 40))
        item->count = 0;
}

static void add_item(struct soak_call *call, size_t at,
                     const struct soak_call *item)
{
    const size_t most = SOAK_MOST_OCTETS - SOAK_MOST_LISTED * CUT_OCTETS;
    size_t count = item->count;

    if (call->count + count > most && count > CUT_OCTETS)
        count = CUT_OCTETS;
    memcpy(call->octets + call->count, item->octets, count);
    call->count += count;
    call->batch.lengths[at] = (uint32_t)count;
    call->batch.ports[at] = item->numbers[0];
    call->batch.slots[at] = (uint16_t)item->numbers[1];
    call->batch.seconds[at] = item->numbers[2];
}

/* What a list has beyond the items. */
static void fill_lists(struct soak_batch *batch, size_t from,
                       struct random *random)
{
    for (size_t i = from; i < SOAK_MOST_LISTED; i++) {
        batch->lengths[i] = random_below(random, 3);
        batch->ports[i] = random_below(random, HJ_PORTS);
        batch->slots[i] = (uint16_t)i;
        batch->seconds[i] = 0xffffffff;
    }
}

/* ---- Spoiling ------------------------------------------------------------ */

/* A list of the next length, in turn. */
static void change_list(struct soak_batch *batch)
{
    static size_t which, next[SOAK_LISTS];
    size_t list = which++ % SOAK_LISTS;

    batch->counts[list] = next[list]++ % (MOST_LISTED + 1);
}

/* Over what is lent: by an octet, or by so much that two lengths wrap. */
static void change_sum(struct soak_call *call, struct random *random)
{
    uint32_t items = (uint32_t)call->batch.counts[LIST_LENGTHS];
    uint32_t item = random_below(random, items);
    uint32_t *lengths = call->batch.lengths;

    switch (random_below(random, 4)) {
    case 0:
        lengths[item]++;
        break;
    case 1:
        call->count -= call->count > 0;
        break;
    case 2:
        lengths[item] += 0x80000000;
        lengths[(item + 1) % items] += 0x80000000;
        break;
    default:
        lengths[item] = 0xffffffff - random_below(random, 3);
    }
}

static void change_room(struct soak_call *call, struct random *random)
{
    call->room = random_one_in(random, 2)
                     ? call->room - 1
                     : random_below(random, (uint32_t)call->room);
}

static void lend_more(struct soak_call *call, struct random *random)
{
    uint32_t more = random_below(random, 20);

    if (random_one_in(random, 2))
        call->room += random_below(random, SOAK_MOST_ROOM);
    if (call->count + more > SOAK_MOST_OCTETS)
        return;
    random_octets(random, call->octets + call->count, more);
    call->count += more;
}

static void spoil(struct soak_call *call, struct random *random)
{
    uint32_t way = random_below(random, 12);

    if (way < 3)
        change_list(&call->batch);
    else if (way == 3 && call->batch.counts[LIST_LENGTHS] > 0)
        change_sum(call, random);
    else if (way == 4 && call->room > 0)
        change_room(call, random);
    else if (way < 7)
        lend_more(call, random);
}

void soak_draw_batch(struct soak_call *call, struct world *world,
                     struct random *random)
{
    static struct soak_call item;
    size_t items = draw_count(random);

    call->count = 0;
    for (size_t i = 0; i < items; i++) {
        draw_item(&item, i == 0, world, random);
        add_item(call, i, &item);
    }
    fill_lists(&call->batch, items, random);
    for (int list = 0; list < SOAK_LISTS; list++)
        call->batch.counts[list] = items;
    call->room = HJ_OUTPUT_ROOM * items;
    spoil(call, random);
}
