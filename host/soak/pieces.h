/*
 * pieces.h: the memory that the calls of the soak are lent: a board, two
 * missions' states and a list, which last, others of another length, and the
 * octets, the output and a batch's lists of the call at hand. Each has a copy
 * that is made what is due (lent.h).
 */
#ifndef PIECES_H
#define PIECES_H

#include "call.h"
#include "shared/library.h"
#include "shared/random.h"
#include "shared/world.h"

/* False where there is no memory. */
bool pieces_make(void);

/* Memory for a board and two states anew, and an empty list. */
void pieces_begin(uint32_t places, struct random *random);

/* ---- What the call is lent ----------------------------------------------- */

/* What stands, all of the right length, for the mission of the world. */
void pieces_lend(struct soak_call *call, const struct world *world);
/* Then another list, of the next length in turn: what stands, and odd records
 * in it. */
void pieces_lend_other_list(struct soak_call *call, const struct world *world,
                            struct random *random);
/* The board, the state or both with a wrong number of words, each length in
 * turn, so that none is left out. */
void pieces_lend_wrong(struct soak_call *call, const struct world *world,
                       struct random *random);
/* The octets of the call and its output, and of a batch the lists. */
void pieces_lend_octets(const struct soak_call *call, struct random *random);

struct soak_pieces {
    struct library_lent lent;
    uint8_t *octets, *output;
    void *lists[SOAK_LISTS]; /* of a batch alone */
};

/* What the call may look at, and what is due of it. */
struct soak_pieces pieces_lent(const struct soak_call *call);
struct soak_pieces pieces_due(const struct soak_call *call);

/* What is not as it is due, or NULL. */
const char *pieces_changed(const struct soak_call *call);

/* ---- What stands, changed ------------------------------------------------ */

/* Anyone may write the list. */
void pieces_write_record(const struct world *world, struct random *random);
void pieces_change_word(const struct world *world, struct random *random);
void pieces_fill_with_garbage(const struct world *world,
                              struct random *random);

#endif
