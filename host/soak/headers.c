/*
 * headers.c: what is due of the headers sent on. One that is kept is plain's. A
 * rewritten one is written by form.c, from the fields that plain read, so by
 * neither of the two that are compared.
 *
 * Where addresses have to be written as four octets is said by the ports'
 * addresses. Which elements were added is said by the length that the answer
 * tells, since a hop count has one octet and a checksum two; the route that the
 * destination takes must then ask for just these.
 *
 * The awkward case is a route that asks for an element where none was added:
 * the datagram may have been sent on by no route, which only plain says.
 */
#include "headers.h"

#include <string.h>

#include "list.h"
#include "shared/form.h"

/* Sets of elements, each by the octets that it has. */
enum { HOP_COUNT = 1, CHECKSUM = 2 };

static uint32_t domain(const struct soak_judged *sent, uint32_t port)
{
    return soak_port_words(sent, port)[1] & 0xffffff00;
}

uint32_t soak_filled_in(const struct soak_judged *sent, plain_wide address)
{
    uint32_t above = sent->came->fields.extended
                         ? 0
                         : domain(sent, sent->call->numbers[0]);

    return above | (uint32_t)address.low;
}

static bool leaves_domain(const struct soak_judged *sent, uint32_t port)
{
    return !sent->came->fields.extended &&
           domain(sent, port) != domain(sent, sent->call->numbers[0]);
}

/* ---- A rewritten header -------------------------------------------------- */

/* The fields that came, but for the addresses. */
static struct form form_of(const plain_fields *fields)
{
    struct form form = {.tp_id = fields->tp_id,
                        .has_source = fields->source_present != 0,
                        .has_qos = fields->basic_qos_present != 0,
                        .has_hop_count = fields->hop_present != 0,
                        .stamp_format = fields->stamp_format,
                        .has_expanded = fields->expanded_present != 0,
                        .has_checksum = fields->checksum_present != 0,
                        .intermediate = fields->intermediate != 0,
                        .precedence = fields->precedence,
                        .routing = fields->routing,
                        .program = fields->program,
                        .hop_count = (uint8_t)(fields->hop - 1),
                        .p_field = (uint8_t)fields->p_field,
                        .expanded = (uint8_t)fields->expanded};
    unsigned octets = form_time_octets(&form);

    for (unsigned i = 0; i < octets; i++)
        form.time[i] = (uint8_t)(fields->time >> 8 * (octets - 1 - i));
    return form;
}

static struct form form_for(const struct soak_judged *sent, uint32_t port,
                            uint32_t added)
{
    const plain_fields *fields = &sent->came->fields;
    struct form form = form_of(fields);

    form.address_octets =
        fields->extended || leaves_domain(sent, port) ? 4 : 1;
    form_put_address(&form, form.destination,
                     soak_filled_in(sent, fields->destination));
    form_put_address(&form, form.source,
                     soak_filled_in(sent, fields->source));
    if (added & HOP_COUNT) {
        form.has_hop_count = true;
        form.hop_count = 64;
    }
    if (added & CHECKSUM)
        form.has_checksum = true;
    form.control_octets = form_shortest_control(&form);
    return form;
}

uint32_t soak_octets_without_route(const struct soak_judged *sent,
                                   uint32_t port)
{
    struct form form = form_for(sent, port, 0);
    uint8_t header[FORM_MOST_HEADER];

    return leaves_domain(sent, port) ? (uint32_t)form_write(&form, 0, header)
                                     : sent->came->header_length;
}

/* Of the elements that the header lacks, those that the route of the
 * destination asks for; none where it does not lead to just this port, or the
 * datagram is flooded and takes none. */
static uint32_t asked_for(const struct soak_judged *sent, uint32_t port)
{
    static const uint32_t BY_CAPABILITIES[] = {
        [HJ_CAPABLE_CHECKSUM] = CHECKSUM,
        [HJ_CAPABLE_HOP_COUNT] = HOP_COUNT,
        [HJ_CAPABLE_BOTH] = CHECKSUM | HOP_COUNT};
    const plain_fields *fields = &sent->came->fields;
    const hj_record *route =
        list_longest(sent->due, soak_filled_in(sent, fields->destination),
                     false);

    if (!fields->source_present || route == NULL || route->port != port ||
        fields->routing == PLAIN_ROUTING_FLOOD ||
        sent->answer->parts[TOLD_TOOK] != (uint64_t)1 << port)
        return 0;
    return BY_CAPABILITIES[route->capabilities] &
           ~((fields->hop_present ? HOP_COUNT : 0u) |
             (fields->checksum_present ? CHECKSUM : 0u));
}

static const char *write_again(const struct soak_judged *sent, uint32_t port,
                               uint8_t *output)
{
    uint32_t data = sent->came->length - sent->came->header_length;
    struct form form = form_for(sent, port, 0);
    uint8_t header[FORM_MOST_HEADER];
    uint64_t added = sent->answer->parts[TOLD_REWRITTEN_OCTETS] -
                     form_write(&form, data, header);

    if (added == 0 && !leaves_domain(sent, port))
        return "a header rewritten for nothing";
    if (added != 0 && added != asked_for(sent, port))
        return "a header longer than is due";
    form = form_for(sent, port, (uint32_t)added);
    memcpy(output, header, form_write(&form, data, header));
    return NULL;
}

/* ---- The header of each port --------------------------------------------- */

static const char *write_header(const struct soak_judged *sent, uint32_t port,
                                uint8_t *output)
{
    const plain_header *came = sent->came;
    bool rewritten = sent->answer->parts[TOLD_REWRITTEN] >> port & 1;
    uint64_t header = rewritten ? sent->answer->parts[TOLD_REWRITTEN_OCTETS]
                                : came->header_length;
    uint64_t length = header + came->length - came->header_length;

    if (leaves_domain(sent, port) && !came->fields.source_present)
        return "a path that left its domain";
    if (leaves_domain(sent, port) && !rewritten)
        return "a one-octet address that left its domain";
    if (length > HJ_MOST_LENGTH || length > soak_port_words(sent, port)[3])
        return "a copy that is too big for its port";
    if (rewritten)
        return write_again(sent, port, output);
    plain_header_send_on(came, sent->call->octets, output);
    return NULL;
}

const char *soak_headers(const struct soak_judged *sent, uint8_t *output)
{
    const struct soak_answer *answer = sent->answer;
    uint64_t took = answer->parts[TOLD_TOOK];
    uint64_t rewritten = answer->parts[TOLD_REWRITTEN];
    const char *wrong = NULL;

    if (answer->parts[TOLD_DATA_FROM] != sent->came->header_length)
        return "the data begin elsewhere";
    if ((rewritten & ~took) != 0 ||
        (rewritten != 0) != (answer->parts[TOLD_REWRITTEN_OCTETS] != 0))
        return "rewritten headers, and none";
    for (uint32_t port = 0; port < HJ_PORTS && wrong == NULL; port++) {
        if (took >> port & 1)
            wrong = write_header(sent, port, output + HJ_HEADER_ROOM * port);
    }
    return wrong;
}
