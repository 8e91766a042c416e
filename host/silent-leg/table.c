/*
 * table.c: one row for each leg. The octets are those on that leg, where the
 * net is known; else those of the datagrams as they were captured. The seconds
 * are how long request and reply occupy the leg, by its bit rate alone; a reply
 * brings no rate along (its field for it is 0).
 */
#include "table.h"

#include <inttypes.h>
#include <stdio.h>

#include "scenario/nodes.h"

const char *table_address(uint64_t address, uint32_t extended)
{
    static char text[2][16];
    static unsigned next;
    char *at = text[next++ % 2];

    if (extended)
        snprintf(at, sizeof *text, "%u.%u.%u.%u",
                 (unsigned)(address >> 24 & 0xff),
                 (unsigned)(address >> 16 & 0xff),
                 (unsigned)(address >> 8 & 0xff), (unsigned)(address & 0xff));
    else
        snprintf(at, sizeof *text, "%u", (unsigned)(address & 0xff));
    return at;
}

static void write_seconds(uint64_t microseconds, char *text, size_t room)
{
    uint64_t tenths = (microseconds + 50) / 100;

    snprintf(text, room, "%" PRIu64 ".%04" PRIu64, tenths / 10000,
             tenths % 10000);
}

static uint32_t request_octets(const struct leg *leg,
                               const struct known *known)
{
    return known->request > 0 ? known->request : leg->request->octets;
}

static uint32_t reply_octets(const struct leg *leg, const struct known *known)
{
    return known->reply > 0 ? known->reply : leg->reply->octets;
}

/* There and back on one leg; 0 where its rate is not known. */
static uint64_t both_ways(const struct leg *leg, const struct known *known)
{
    if (known->bits == 0 || leg->reply == NULL)
        return 0;
    return wire_microseconds(request_octets(leg, known), known->bits) +
           wire_microseconds(reply_octets(leg, known), known->bits);
}

static void print_answered(const struct leg *leg, const struct known *known)
{
    const hj_fields *fields = &leg->reply->fields;
    const hj_message *says = &leg->reply->says;
    char seconds[24] = "-";
    char stamp[24] = "-";

    if (known->bits != 0)
        write_seconds(both_ways(leg, known), seconds, sizeof seconds);
    if ((says->format & 3) != HJ_STAMP_NONE)
        snprintf(stamp, sizeof stamp, "%" PRIu64, says->stamp);
    printf("%-15s %4" PRIu32 " %4" PRIu32 "  %3" PRIu32 "/%-3" PRIu32
           " %7" PRIu32 " %5" PRIu32 " %9s %5" PRIu32 " %9s",
           table_address(fields->source_low, fields->extended),
           leg->request->fields.hop_count, says->hop_count, leg->answered,
           leg->asked, request_octets(leg, known), reply_octets(leg, known),
           seconds, says->mtu, stamp);
}

static const char *unanswered(const struct leg *leg)
{
    if (leg->unclear > 0)
        return "unclear";
    return leg->asked > 0 ? "silent" : "not asked";
}

static void print_row(const struct leg *leg, uint32_t number,
                      const struct known *known)
{
    printf("%3" PRIu32 "  ", number);
    if (leg->reply != NULL)
        print_answered(leg, known);
    else
        printf("%-15s %4s %4s  %3" PRIu32 "/%-3" PRIu32 " %7s %5s %9s %5s %9s",
               unanswered(leg), "-", "-", leg->answered, leg->asked, "-", "-",
               "-", "-", "-");
    printf(*known->text != '\0' ? "  %s\n" : "\n", known->text);
}

/* The sum of the seconds, where each row up to the last answer has some. */
static void print_sum(const struct legs *legs, const struct known *known)
{
    uint64_t sum = 0;
    char seconds[24];

    for (uint32_t leg = 1; leg <= legs->last; leg++) {
        if (both_ways(&legs->of[leg], &known[leg]) == 0)
            return;
        sum += both_ways(&legs->of[leg], &known[leg]);
    }
    write_seconds(sum, seconds, sizeof seconds);
    if (legs->last > 0)
        printf("There and back on each of these legs: %s s in all.\n", seconds);
}

void table_print(const struct legs *legs, const struct known *known)
{
    const hj_fields *fields = &legs->first->fields;
    uint32_t silent = legs_silent(legs);
    uint32_t rows = silent > 0 ? silent : legs->last;

    printf("From %s to %s, identifier %" PRIu32,
           table_address(fields->source_low, fields->extended),
           table_address(fields->destination_low, fields->extended),
           legs->first->says.identifier);
    if (legs->first->run > 0)
        printf(", run %" PRIu32, legs->first->run + 1);
    puts("");
    printf("leg  answered by     sent seen  replies request reply   seconds   "
           "MTU timestamp%s\n",
           *known[1].text != '\0' ? "  link" : "");
    for (uint32_t leg = 1; leg <= rows; leg++)
        print_row(&legs->of[leg], leg, &known[leg]);
    print_sum(legs, known);
}
