/*
 * verdict.c: a verdict, shown and looked at. A trace shows the ports that took
 * an entry and their headers, but not who dropped a copy, which headers are
 * rewritten and how long each of them is: these have to go with what it shows.
 */
#include "verdict.h"

#include "lent.h"

void verdict_add(struct text *answer, hj_verdict verdict, size_t from,
                 size_t room)
{
    uint32_t octets[HJ_PORTS];

    text_number(answer, hj_ended_by(verdict));
    text_next_number(answer, hj_local(verdict));
    text_next_number(answer, hj_onward(verdict));
    text_next_number(answer, hj_took(verdict));
    text_string(answer, " ");
    for (uint32_t port = 0; port < HJ_PORTS; port++)
        octets[port] = hj_header_octets(verdict, port);
    lent_headers(answer, from, room, hj_took(verdict), octets);
}

static bool parts_agree(hj_verdict verdict)
{
    uint32_t took = hj_took(verdict);
    uint32_t dropped = hj_dropped(verdict);
    uint32_t onward = hj_onward(verdict);
    uint32_t rewritten = hj_rewritten(verdict);

    if (hj_ended_by(verdict) != HJ_DONE)
        return verdict >> 8 == 0;
    return (took & dropped) == 0 && (took != 0) == (onward == HJ_SENT_ON) &&
           (rewritten & ~took) == 0 &&
           (rewritten != 0) == (hj_rewritten_octets(verdict) != 0) &&
           (dropped == 0 || took != 0 || onward == HJ_QUEUES_FULL) &&
           (dropped != 0 || onward != HJ_QUEUES_FULL);
}

static uint32_t length_field(const uint8_t *header)
{
    return (uint32_t)(header[0] & 31) << 8 | header[1];
}

/* Whether the data begin behind the header that came, and each header sent on
 * says a length of its own octets and the data. */
static bool lengths_agree(hj_verdict verdict, const uint8_t *octets,
                          size_t count, const uint8_t *output)
{
    hj_reading came;
    bool agree;

    if (hj_ended_by(verdict) != HJ_DONE)
        return true;
    came = hj_read(octets, count);
    agree = hj_data_from(verdict) == came.header;
    for (uint32_t port = 0; port < HJ_PORTS; port++) {
        uint32_t header = hj_header_octets(verdict, port);

        agree = agree && (header == 0 ||
                          length_field(hj_header(output, port)) ==
                              header + came.length - came.header);
    }
    return agree;
}

bool verdict_agrees(hj_verdict verdict, const uint8_t *octets, size_t count,
                    const uint8_t *output)
{
    return parts_agree(verdict) &&
           lengths_agree(verdict, octets, count, output);
}

bool verdict_counts(hj_verdict verdict)
{
    uint32_t refusal = hj_ended_by(verdict);

    return refusal != HJ_BAD_NUMBER && refusal != HJ_NO_PORT &&
           refusal != HJ_SHORT_OUTPUT && refusal != HJ_SECOND_PAST;
}
