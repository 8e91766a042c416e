/*
 * builds.c: `build` lines. Each is the call that would build a good header;
 * about half of them are then spoiled: a number too large for its element, a
 * combination that 003 does not allow, too little room, too much data. Two
 * spoilings may meet in a line, which tries the order 17, 19, 20.
 *
 * A line must stay understood, so what spoils one part of a timestamp or of the
 * basic QOS sets its other parts too.
 */
#include "builds.h"

#include <inttypes.h>
#include <stdio.h>
#include <string.h>

#include "shared/calls.h"
#include "shared/form.h"
#include "shared/text.h"

enum argument {
    DATA,
    ROOM,
    TPID,
    DESTINATION,
    SOURCE,
    EXTENDED,
    IPV6,
    PRECEDENCE,
    ROUTING,
    PROGRAM,
    HOP,
    FORMAT,
    TIMESTAMP,
    EXPANDED,
    CHECKSUM,
    INTERMEDIATE,
    ARGUMENTS
};

struct build {
    char words[ARGUMENTS][40];
};

static void say(struct build *build, enum argument argument, const char *word)
{
    snprintf(build->words[argument], sizeof build->words[argument], "%s",
             word);
}

static void say_number(struct build *build, enum argument argument,
                       uint32_t number)
{
    snprintf(build->words[argument], sizeof build->words[argument],
             "%" PRIu32, number);
}

static void say_element(struct build *build, enum argument argument,
                        bool present, uint32_t number)
{
    if (present)
        say_number(build, argument, number);
    else
        say(build, argument, "-");
}

static void say_octets(struct build *build, enum argument argument,
                       const uint8_t *octets, size_t count)
{
    static struct text word;

    text_clear(&word);
    text_octets(&word, octets, count);
    text_add(&word, "", 1);
    say(build, argument, word.start);
}

static void say_stamp(struct build *build, const struct form *form)
{
    uint8_t octets[8];
    size_t count = 0;

    if (form->stamp_format == 2)
        octets[count++] = form->p_field;
    memcpy(octets + count, form->time, form_time_octets(form));
    say_number(build, FORMAT, form->stamp_format);
    say_octets(build, TIMESTAMP, octets, count + form_time_octets(form));
}

static void say_form(struct build *build, const struct form *form)
{
    say_number(build, TPID, form->tp_id);
    say_octets(build, DESTINATION, form->destination, form->address_octets);
    say_octets(build, SOURCE, form->source,
               form->has_source ? form->address_octets : 0);
    say_number(build, EXTENDED, form->address_octets == 4);
    say_number(build, IPV6, form->address_octets == 16);
    say_element(build, PRECEDENCE, form->has_qos, form->precedence);
    say_element(build, ROUTING, form->has_qos, form->routing);
    say_element(build, PROGRAM, form->has_qos, form->program);
    say_element(build, HOP, form->has_hop_count, form->hop_count);
    say_stamp(build, form);
    say_element(build, EXPANDED, form->has_expanded, form->expanded);
    say_number(build, CHECKSUM, form->has_checksum);
    say_number(build, INTERMEDIATE, form->intermediate);
}

/* The least number out of range, the greatest of the type, or between them. */
static void say_too_large(struct build *build, enum argument argument,
                          uint32_t least, struct random *random)
{
    static const uint32_t ABOVE[] = {0, 1, 0xffffffff};
    uint32_t above = PICK(ABOVE);

    say_number(build, argument, above > 1 ? above : least + above);
}

/* Flags that 003's address formats leave out, and addresses over their
 * octets. */
static void spoil_addresses(struct build *build, struct random *random)
{
    static const char *const LARGE[] = {
        "100", "1ff", "100000000", "10a04090e", "10000000000000000",
        "ffffffffffffffffffffffffffffffff"};

    switch (random_below(random, 4)) {
    case 0:
        say(build, DESTINATION, PICK(LARGE));
        break;
    case 1:
        say(build, SOURCE, PICK(LARGE));
        break;
    case 2:
        say(build, SOURCE, "-");
        break;
    default:
        say(build, random_one_in(random, 2) ? EXTENDED : IPV6, "1");
    }
}

static void spoil_qos(struct build *build, struct random *random)
{
    say_number(build, PRECEDENCE, random_below(random, 16));
    say_number(build, ROUTING, random_below(random, 4));
    say_number(build, PROGRAM, random_below(random, 4));
    switch (random_below(random, 3)) {
    case 0:
        say_too_large(build, PRECEDENCE, 16, random);
        break;
    case 1:
        say_too_large(build, ROUTING, 4, random);
        break;
    default:
        say_too_large(build, PROGRAM, 4, random);
    }
}

static void spoil_element(struct build *build, struct random *random)
{
    static const struct {
        enum argument argument;
        uint32_t least;
    } TOO_LARGE[] = {{TPID, 16}, {EXTENDED, 2},  {IPV6, 2},
                     {HOP, 256}, {CHECKSUM, 2},  {EXPANDED, 256},
                     {FORMAT, 4}, {INTERMEDIATE, 2}};
    uint32_t which = random_below(random, 8);

    say_too_large(build, TOO_LARGE[which].argument, TOO_LARGE[which].least,
                  random);
    if (TOO_LARGE[which].argument == FORMAT)
        say(build, TIMESTAMP, "-");
}

static void spoil(struct build *build, struct random *random)
{
    switch (random_below(random, 10)) {
    case 0:
        spoil_addresses(build, random);
        break;
    case 1:
        spoil_qos(build, random);
        break;
    case 2:
    case 3:
        spoil_element(build, random);
        break;
    default:
        break;
    }
}

static uint32_t choose_data(struct random *random)
{
    static const uint32_t EDGES[] = {0,    8139, 8140,  8141,  8142,      8143,
                                     8187, 8191, 65535, 65536, 0xffffffff};

    if (random_one_in(random, 3))
        return PICK(EDGES);
    return random_below(random, 8192);
}

static uint32_t choose_room(struct random *random)
{
    static const uint32_t EDGES[] = {0, 1, 48, 49, 51, 52, 400};

    return random_one_in(random, 8) ? PICK(EDGES) : 50;
}

void write_builds(uint64_t count, struct random *random)
{
    for (uint64_t i = 0; i < count; i++) {
        struct form form;
        struct build build;

        form_choose(&form, random);
        say_number(&build, DATA, choose_data(random));
        say_number(&build, ROOM, choose_room(random));
        say_form(&build, &form);
        spoil(&build, random);
        fputs(call_facts[CALL_BUILD].word, stdout);
        for (int argument = 0; argument < ARGUMENTS; argument++)
            printf(" %s", build.words[argument]);
        putchar('\n');
    }
}
