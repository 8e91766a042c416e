/*
 * Which refusal counts where, from page 01's table of refusal numbers and page
 * 02, W-207.
 *
 * The awkward cases: 15 is left out on purpose, since npOutDiscards has
 * already counted each of its dropped copies; and no refusal has npInReceives
 * for its counter, so that 0 in the table can stand for "none".
 */
#include "plain_counters.h"

static const uint8_t counter_of[] = {
    [PLAIN_SHORT] = PLAIN_IN_BAD_LENGTH,
    [PLAIN_BAD_VERSION] = PLAIN_IN_BAD_VERSION,
    [PLAIN_BAD_LENGTH] = PLAIN_IN_BAD_LENGTH,
    [PLAIN_BAD_FORM] = PLAIN_IN_BAD_ADDRESS,
    [PLAIN_BAD_CHECKSUM] = PLAIN_IN_BAD_CHECKSUM,
    [PLAIN_BAD_ADDRESS] = PLAIN_IN_BAD_ADDRESS,
    [PLAIN_NO_DOMAIN] = PLAIN_IN_BAD_ADDRESS,
    [PLAIN_NOT_CARRIED] = PLAIN_UNSUPPORTED,
    [PLAIN_NOT_FOR_US] = PLAIN_IN_ADDR_ERRORS,
    [PLAIN_HOPS_USED_UP] = PLAIN_FORW_HOP_DISCARD,
    [PLAIN_NO_ROUTE] = PLAIN_OUT_NO_ROUTES,
    [PLAIN_ROUTE_NOT_UP] = PLAIN_OUT_NO_ROUTES,
    [PLAIN_LEAVES_DOMAIN] = PLAIN_LEFT_DOMAIN,
    [PLAIN_TOO_BIG] = PLAIN_TOO_BIG_COUNT,
    [PLAIN_UNKNOWN_TP_ID] = PLAIN_IN_UNKNOWN_PROTOS,
    [PLAIN_FLOOD_UNMARKED] = PLAIN_FLOOD_UNMARKED_COUNT,
    [PLAIN_PAIRS_HELD] = PLAIN_PAIRS_HELD_COUNT,
};

void plain_count(plain_counters *counters, plain_counter counter)
{
    counters->counts[counter]++;
}

void plain_count_refusal(plain_counters *counters, plain_refusal refusal)
{
    plain_counter counter = (plain_counter)counter_of[refusal];

    if (counter != PLAIN_IN_RECEIVES)
        plain_count(counters, counter);
}
