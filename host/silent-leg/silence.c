/*
 * silence.c: what a silent leg can mean, and no more than the facts allow.
 *
 * A relay that is silent while one behind it answers got its requests, since it
 * sent them on: the silence is its own. Behind the last that answers it may be
 * the leg, out or back, or what stands at its end, or the one before it does
 * not send on. Echoes alone cannot tell these apart. With a scenario the
 * relays' settings are known (way.h), and what they rule out is said.
 */
#include "silence.h"

#include <inttypes.h>
#include <stdio.h>

#include "scenario/names.h"

/* ---- By the settings --------------------------------------------------- */

/* A call that is refused as a whole says nothing of the way onward. */
static void tell_refused(const char *what, uint32_t number)
{
    printf("refuses %s: %" PRIu32 ", %s.\n", what, number,
           number_name(number));
}

/* Why the relay at the end of a way does not send on what came there. */
static void tell_end(const struct step *step, const char *what)
{
    const char *name = nodes[step->peer].name;
    uint32_t ended = hj_ended_by(step->verdict);
    uint32_t onward = hj_onward(step->verdict);

    printf("   By its settings %s ", name);
    if (ended != HJ_DONE)
        tell_refused(what, ended);
    else if (onward == HJ_SENT_ON)
        printf("sends %s on by port %" PRIu32 ", which has no link.\n", what,
               way_port(hj_took(step->verdict)));
    else if (onward == HJ_NOT_ASKED)
        printf("does not send %s on: it is a host, or it is meant.\n", what);
    else
        printf("does not send %s on: %" PRIu32 ", %s.\n", what, onward,
               number_name(onward));
}

/* Whether the reply comes back to the node that asked; where it ends else. */
static bool comes_back(const struct step *step, uint32_t asker)
{
    static struct way back;
    const struct step *end;

    way_find(step->peer, way_port(hj_took(step->echo)), &step->reply, &back);
    end = &back.steps[back.count];
    if (back.count == 0) {
        puts("   That port has no link.");
        return false;
    }
    if (end->peer == asker && hj_local(end->verdict) == HJ_DELIVERED)
        return true;
    tell_end(end, "the reply");
    return false;
}

/* The number by which the relay refuses to receive the request, or to answer
 * it; HJ_DONE where it refuses neither. */
static uint32_t whole_refusal(const struct step *step)
{
    uint32_t ended = hj_ended_by(step->verdict);

    return ended != HJ_DONE ? ended : hj_ended_by(step->echo);
}

/* What the relay at the end of the leg answers; whether it would be heard. */
static bool tell_answer(const struct step *step, uint32_t asker)
{
    const struct node *node = &nodes[step->peer];
    uint32_t ended = whole_refusal(step);
    uint32_t onward = hj_onward(step->echo);
    bool drops = hj_value(hj_get_echo_drop(LENT_BOARD(node))) != 0;

    printf("   By its settings %s ", node->name);
    if (ended == HJ_DONE && onward == HJ_SENT_ON) {
        printf("answers, and the reply goes back by port %" PRIu32 ".\n",
               way_port(hj_took(step->echo)));
        return comes_back(step, asker);
    }
    if (ended != HJ_DONE)
        tell_refused("the request", ended);
    else if (onward == HJ_NO_REPLY)
        printf("makes no reply%s.\n", drops ? ": echo drop is on" : "");
    else
        printf("makes a reply that does not go out: %" PRIu32 ", %s.\n", onward,
               number_name(onward));
    return false;
}

static void tell_settings(const struct way *way, uint32_t leg)
{
    const struct step *step = &way->steps[leg];

    if (leg > way->count) {
        tell_end(&way->steps[way->count], "the request");
        return;
    }
    printf("   By its settings %s sends the request by port %" PRIu32 ".\n",
           nodes[step->node].name, step->port);
    if (!tell_answer(step, way->steps[1].node))
        puts("   So it would be silent by a good link too.");
    else if (way_port(hj_took(step->echo)) != step->peer_port)
        puts("   So this link is silent, or the way back by that port.");
    else
        puts("   So the link itself is silent, on the way out or on the way "
             "back.");
}

/* ---- By the echoes ----------------------------------------------------- */

static void tell_skipped(uint32_t leg, const struct way *way)
{
    printf("Leg %" PRIu32
           ": the relay at its end is silent, and one behind it answers. So "
           "requests pass:\n   it drops echo requests, or its own replies find "
           "no way back.\n",
           leg);
    if (way != NULL && leg <= way->count)
        (void)tell_answer(&way->steps[leg], way->steps[1].node);
}

static void tell_all_skipped(const struct legs *legs, const struct way *way)
{
    for (uint32_t leg = 1; leg < legs->last; leg++) {
        if (legs_is_skipped(legs, leg))
            tell_skipped(leg, way);
    }
}

static void tell_meanings(const struct legs *legs, uint32_t leg)
{
    puts("   It can mean: the leg is silent, on the way out or on the way "
         "back; what is at\n   its end drops echo requests or has no route "
         "back; or the relay before it\n   does not send on.");
    if (legs->furthest > leg)
        puts("   If one relay alone dropped them, any behind it would answer; "
             "none does.");
}

static void tell_silent(const struct legs *legs, const struct known *known,
                        const struct way *way)
{
    uint32_t leg = legs_silent(legs);
    const char *text = known[leg].text;

    printf("Silence begins at leg %" PRIu32 "%s%s. Hop counts up to %" PRIu32
           " were sent.\n",
           leg, *text != '\0' ? ", " : "", text, legs->furthest);
    if (way != NULL)
        tell_settings(way, leg);
    else
        tell_meanings(legs, leg);
}

static void tell_ring(const struct legs *legs)
{
    uint32_t earlier = 0;
    uint32_t leg = legs_ring(legs, &earlier);

    if (leg > 0)
        printf("The way goes round a ring: the same relay answers at the ends "
               "of legs %" PRIu32 " and %" PRIu32 ".\n",
               earlier, leg);
}

static void tell_open(const struct legs *legs)
{
    if (legs->furthest > 0)
        printf("No request went further than leg %" PRIu32
               "; what is behind it is not known.\n",
               legs->furthest);
    if (legs->unanswered > 0)
        printf("Requests without intermediate delivery that have no answer: "
               "%" PRIu32 ". They do\nnot tell where silence begins.\n",
               legs->unanswered);
}

static void tell_unclear(const struct legs *legs)
{
    printf("Replies that fit a request of another way or run just as well: "
           "%" PRIu32 ". Which one\nthey answer is not clear, so nothing is "
           "said of this way. Let each have an\nidentifier of its own.\n",
           legs->unclear);
}

static bool tell_arrived(const struct legs *legs)
{
    const hj_fields *fields = &legs->first->fields;
    bool missing = legs_any_missing(legs);

    printf("%s answers over %" PRIu32 " %s%s\n",
           table_address(fields->destination_low, fields->extended),
           legs->last, legs->last == 1 ? "leg" : "legs",
           missing ? ", but replies to some requests are missing."
                   : ": none is silent.");
    return !missing;
}

bool silence_tell(const struct legs *legs, const struct known *known,
                  const struct way *way)
{
    if (legs->unclear > 0) {
        tell_unclear(legs);
        return false;
    }
    tell_all_skipped(legs, way);
    tell_ring(legs);
    if (legs_silent(legs) > 0)
        tell_silent(legs, known, way);
    else if (!legs->arrived)
        tell_open(legs);
    return legs->arrived && !legs_any_skipped(legs) && tell_arrived(legs);
}
