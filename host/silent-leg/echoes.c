/*
 * echoes.c: what was seen of a trace, sent by us or captured, is read by the
 * library alone (hj_read, hj_read_echo).
 *
 * A message may be captured in several places. It is the same one where all is
 * equal that no relay changes: the message to its last octet, and the header
 * but for hop count and checksum. The timestamp is what tells a request from
 * one that is sent later with the same numbers; without one, the two cannot be
 * told apart. Where they can, a sequence number that comes again begins a new
 * run, so that the answers of one run do not speak for the next.
 *
 * The awkward case is a request without a hop count. It is never answered, so
 * it is no echo for us.
 */
#include "echoes.h"

#include <stdio.h>
#include <stdlib.h>
#include <string.h>

struct echoes requests, replies;
static uint32_t others, repeats;

uint32_t echoes_others(void)
{
    return others;
}

uint32_t echoes_repeats(void)
{
    return repeats;
}

/* ---- Captured twice ---------------------------------------------------- */

/* The fields that no relay changes. */
static hj_fields lasting(hj_fields fields)
{
    fields.hop_count = 0;
    fields.has_checksum = 0;
    return fields;
}

static bool is_repeat(const struct echo *one, const struct echo *other)
{
    hj_fields of_one = lasting(one->fields);
    hj_fields of_other = lasting(other->fields);

    return memcmp(&of_one, &of_other, sizeof of_one) == 0 &&
           one->message_octets == other->message_octets &&
           memcmp(one->message, other->message, one->message_octets) == 0;
}

static bool is_known(const struct echoes *list, const struct echo *echo)
{
    for (uint32_t i = 0; i < list->count; i++) {
        if (is_repeat(&list->first[i], echo))
            return true;
    }
    return false;
}

/* ---- Runs -------------------------------------------------------------- */

static bool are_one_way(const struct echo *one, const struct echo *other)
{
    return one->says.identifier == other->says.identifier &&
           one->fields.extended == other->fields.extended &&
           one->fields.source_low == other->fields.source_low &&
           one->fields.destination_low == other->fields.destination_low;
}

bool echoes_are_one_run(const struct echo *one, const struct echo *other)
{
    return are_one_way(one, other) && one->run == other->run;
}

/* The run of its way that the request belongs to: the last one so far, or the
 * next where that has its sequence number. */
static uint32_t run_of(const struct echo *request)
{
    uint32_t run = 0;

    for (uint32_t i = 0; i < requests.count; i++) {
        const struct echo *earlier = &requests.first[i];
        uint32_t least = earlier->run + (earlier->says.sequence ==
                                         request->says.sequence);

        if (are_one_way(earlier, request) && least > run)
            run = least;
    }
    return run;
}

/* ---- Taking in --------------------------------------------------------- */

static void *room_for(void *old, size_t octets)
{
    void *room = realloc(old, octets);

    if (room == NULL) {
        fputs("silent-leg: no memory for an echo\n", stderr);
        exit(2);
    }
    return room;
}

static void add(struct echoes *list, struct echo *echo)
{
    if (is_known(list, echo)) {
        repeats++;
        return;
    }
    if (list->count == list->room) {
        list->room = 2 * list->room + 64;
        list->first = room_for(list->first, list->room * sizeof *list->first);
    }
    echo->message = memcpy(room_for(NULL, echo->message_octets), echo->message,
                           echo->message_octets);
    list->first[list->count++] = *echo;
}

/* A control message that somebody may answer; IPv6 is not carried. */
static bool may_be_echo(const hj_fields *fields)
{
    return fields->tp_id == HJ_TP_SCMP && fields->has_source &&
           fields->has_hop_count && !fields->ipv6;
}

uint32_t echoes_take(const uint8_t *octets, size_t count)
{
    hj_reading reading = hj_read(octets, count);
    struct echo echo = {.octets = reading.length,
                        .fields = reading.fields,
                        .message = octets + reading.header,
                        .message_octets = reading.length - reading.header};
    uint32_t refusal = reading.refusal;

    if (refusal == HJ_DONE && may_be_echo(&reading.fields))
        refusal = hj_read_echo(echo.message, echo.message_octets, &echo.says);
    if (reading.refusal == HJ_DONE &&
        (refusal == HJ_BAD_FORM || !may_be_echo(&reading.fields))) {
        others++;
        return HJ_DONE;
    }
    if (refusal != HJ_DONE)
        return refusal;
    if (echo.says.type == HJ_ECHO_REQUEST)
        echo.run = run_of(&echo);
    add(echo.says.type == HJ_ECHO_REQUEST ? &requests : &replies, &echo);
    return HJ_DONE;
}
