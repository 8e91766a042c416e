/*
 * echoes.c: what was reached of echo requests. Why one gets no reply is not in
 * the answer: each reason is told from the view by itself, and a row counts a
 * line for which it is the only one. The lists are in echo_lists.h.
 *
 * The awkward case is a header that is not good: of that only its lengths are
 * looked at, so that a line may have no reason here and yet get no reply.
 */
#include "echoes.h"

#include <stdio.h>

#include "echo_lists.h"
#include "shared/answered.h"
#include "shared/form.h"
#include "table.h"

#define SCMP 1
#define REQUEST 8
#define MESSAGE_HEADER 8
#define REPLY_FIXED 26
#define MOST_DATA 8141
#define NO_TYPE 256

#define NAME(name, condition) name,
#define COUNT(name, condition) *reached++ += (condition) ? 1 : 0;

static const char *const REFUSED_NAMES[] = {ECHO_REFUSED_LIST(NAME)};
static const char *const NONE_NAMES[] = {ECHO_NONE_LIST(NAME)};
static const char *const SENT_NAMES[] = {ECHO_SENT_LIST(NAME)};

static struct {
    uint64_t onward[CALL_NUMBERS];
    uint64_t of_refused[LENGTH(REFUSED_NAMES)];
    uint64_t of_none[LENGTH(NONE_NAMES)];
    uint64_t of_sent[LENGTH(SENT_NAMES)];
} tally;

static uint32_t number(struct trace_word word)
{
    return (uint32_t)answered_number(UINT32_MAX, word);
}

/* ---- Why there is no reply ----------------------------------------------- */

static uint32_t message_faults(struct echo *e, uint8_t *octets)
{
    uint8_t *message = octets + CAME.header;
    uint32_t count = CAME.length - CAME.header;
    uint32_t carried, faults = 0;

    e->type = count > 0 ? message[0] : NO_TYPE;
    if (count < MESSAGE_HEADER)
        return SHORT_MESSAGE;
    e->data = count - MESSAGE_HEADER;
    carried = (uint32_t)message[2] << 8 | message[3];
    message[2] = 0;
    message[3] = 0;
    faults |= e->type != REQUEST ? NOT_REQUEST : 0;
    faults |= message[1] != 0 ? BAD_CODE : 0;
    return faults | (form_checksum(message, count) != carried ? BAD_SUM : 0);
}

static bool to_many(const struct naming *named)
{
    return !named->own &&
           (named->limited || view_ours(named) || named->multicast ||
            (named->destination >> 24 == 10 &&
             named->destination % 256 == 255));
}

static bool is_delivered(const struct echo *e)
{
    const struct naming *named = &e->named;

    return named->own || named->limited || view_ours(named) ||
           named->subscribed || CAME.intermediate ||
           (named->path != NULL && named->path->here);
}

static uint32_t faults_of(const struct view *v, struct echo *e,
                          uint8_t *octets)
{
    uint32_t faults = message_faults(e, octets);

    faults |= CAME.tp_id != SCMP ? NOT_SCMP : 0;
    faults |= !CAME.has_source ? NO_SOURCE : 0;
    faults |= !CAME.has_hop_count ? NO_HOPS : 0;
    faults |= CAME.routing == ARRIVING_FLOODED ? FLOODED : 0;
    faults |= !is_delivered(e) ? NOT_DELIVERED : 0;
    faults |= to_many(&e->named) ? TO_MANY : 0;
    faults |= v->echo_drop != 0 ? DROPPED : 0;
    return faults | (e->mtu < e->fixed ? SMALL_MTU : 0);
}

/* ---- How long a reply is ------------------------------------------------- */

static uint32_t least(uint32_t one, uint32_t other)
{
    return one < other ? one : other;
}

static void look_at_route(const struct view *v, struct echo *e)
{
    static const struct view_route none;
    uint32_t domain = v->ports[e->arrival].address >> 8;
    struct list_found found = list_find(v, e->source);

    e->to = found.route != NULL ? found.route : &none;
    e->others = found.others;
    e->checked = e->to->capabilities == 1 || e->to->capabilities == 4;
    e->widened = !CAME.extended &&
                 v->ports[e->to->port % VIEW_PORTS].address >> 8 != domain;
    e->to_mtu = v->ports[e->to->port % VIEW_PORTS].mtu;
}

static void look_at_reply(const struct view *v, struct echo *e)
{
    e->fixed = 5 + (CAME.extended ? 8 : 2) + CAME.has_qos + REPLY_FIXED;
    e->source = CAME.source;
    if (!CAME.extended)
        e->source |= v->ports[e->arrival].address & 0xffffff00;
    look_at_route(v, e);
}

static void look_at_size(struct echo *e)
{
    if (e->mtu < e->fixed)
        return;
    e->made = e->fixed + least(e->data, MOST_DATA - REPLY_FIXED);
    e->made = least(e->made, e->mtu);
    e->size = e->made + (e->widened ? 6 : 0) + (e->checked ? 2 : 0);
}

/* ---- Lines --------------------------------------------------------------- */

static void count_lists(const struct view *v, const struct echo *e)
{
    uint64_t *reached = tally.of_refused;

    ECHO_REFUSED_LIST(COUNT)
    if (e->refusal != 0)
        return;
    tally.onward[e->onward % CALL_NUMBERS]++;
    reached = tally.of_none;
    ECHO_NONE_LIST(COUNT)
    reached = tally.of_sent;
    ECHO_SENT_LIST(COUNT)
}

/* Whether the header's own octets are there, within its length. */
static bool is_sound(const struct echo *e)
{
    return CAME.length <= e->lent && CAME.header <= CAME.length;
}

bool count_echo(const struct view *v, const struct trace_call *call,
                const struct trace_call *answer)
{
    static uint8_t octets[TRACE_MOST_OCTETS];
    struct echo e = {.faults = NOT_SOUND, .type = NO_TYPE};

    if (!trace_octets(call->words[4], octets, &e.lent))
        return false;
    e.arrival = number(call->words[1]);
    e.room = number(call->words[3]);
    e.refusal = number(answer->words[0]);
    e.onward = number(answer->words[1]);
    e.took = number(answer->words[2]);
    e.datagram = arriving_read(octets, e.lent);
    if (e.arrival < VIEW_PORTS) {
        e.mtu = v->ports[e.arrival].mtu;
        e.named = view_name(v, e.arrival, &e.datagram);
        look_at_reply(v, &e);
        if (is_sound(&e))
            e.faults = faults_of(v, &e, octets);
        look_at_size(&e);
    }
    count_lists(v, &e);
    return e.refusal != 0 || e.arrival < VIEW_PORTS;
}

void say_echoes(void)
{
    static const char *const ONWARD[CALL_NUMBERS] = {
        [0] = "reply: 0, none", [1] = "reply: 1, sent", [11] = "reply: 11",
        [14] = "reply: 14",     [15] = "reply: 15"};

    puts("Echo requests:");
    say_answers(ONWARD, tally.onward, CALL_NUMBERS);
    say_list(REFUSED_NAMES, tally.of_refused, LENGTH(REFUSED_NAMES));
    say_list(NONE_NAMES, tally.of_none, LENGTH(NONE_NAMES));
    say_list(SENT_NAMES, tally.of_sent, LENGTH(SENT_NAMES));
}
