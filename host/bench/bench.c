/*
 * bench: makes the calls of a trace on the library and on host/plain, both in
 * one program, so that they can be measured side by side.
 *
 *     bench count < TRACE    each measured call between two marks
 *     bench stack < TRACE    each measured call on a painted stack
 *     bench state            the octets of board and missions, and of a record
 *
 * `count` prints a line for each measured call, the kind of it and which side
 * made it; an emulator that logs every instruction gives the numbers to these
 * lines, as those between bench_begin and bench_end (scripts/bench). Its first
 * line is a measure of nothing, the cost of the marks. `stack` prints the lines
 * with the octets of stack that the call has written to. Measured are receive,
 * echo, sweep, take, read, read_echo and build_echo. A batch is measured three
 * times: its items one by one on each side, and all of them in one call of the
 * library, which is a third side.
 *
 * The awkward case is a call that differs on the two sides: what is measured is
 * then not the same, and the program fails.
 */
#define _POSIX_C_SOURCE 200809L

#include <inttypes.h>
#include <stdio.h>
#include <stdlib.h>
#include <string.h>

#include "batch.h"
#include "call.h"
#include "ours.h"
#include "painted.h"
#include "plain.h"
#include "shared/arriving.h"
#include "shared/options.h"
#include "shared/trace.h"

/* ---- One call ------------------------------------------------------------ */

enum mode { COUNT, STACK };

static void say(enum mode mode, const char *kind, const char *side,
                size_t octets)
{
    if (mode == COUNT)
        printf("%s\t%s\n", kind, side);
    else
        printf("%s\t%s\t%zu\n", kind, side, octets);
}

/* Makes the call by a side; the answer is in bench_call. */
static size_t run(enum mode mode, void make(void))
{
    if (mode == STACK)
        return painted_octets(make);
    make();
    return 0;
}

/* By how many ports took it, as the mix has them, and by its headers. */
static const char *kind_of_sent(const struct bench_answer *answer)
{
    if ((answer->took & (answer->took - 1)) == 0)
        return answer->rewritten != 0 ? "receive, sent by route, rewritten"
                                      : "receive, sent by route";
    if (answer->rewritten == 0)
        return "receive, sent to three ports";
    return answer->rewritten == answer->took
               ? "receive, sent to three ports, rewritten"
               : "receive, broadcast, two forms";
}

/* As the trace of floods has them. */
static const char *kind_of_flood(const struct bench_answer *answer)
{
    if (answer->onward == 1)
        return "receive, flood kept, to three ports";
    return answer->onward == 0 ? "receive, flood held" : "receive, other";
}

static const char *kind_of_receive(const struct bench_answer *answer)
{
    struct arriving came =
        arriving_read(bench_call.octets, bench_call.count);

    if (answer->refusal != 0)
        return "receive, refused";
    if (came.routing == ARRIVING_FLOODED)
        return kind_of_flood(answer);
    if (answer->onward == 1)
        return kind_of_sent(answer);
    return answer->local == 1 ? "receive, delivered" : "receive, other";
}

/* As the trace of echo requests has them. */
static const char *kind_of_echo(const struct bench_answer *answer)
{
    if (answer->onward != 1)
        return "echo, no reply";
    return bench_call.count > 1000 ? "echo, answered, 1,000 octets of data"
                                   : "echo, answered, 32 octets of data";
}

static const char *kind_of(const struct bench_answer *answer)
{
    switch (bench_call.which) {
    case CALL_ECHO:
        return kind_of_echo(answer);
    case CALL_READ_ECHO:
        return "read_echo, 32 octets of data";
    case CALL_BUILD_REQUEST:
        return "build_echo, 32 octets of data";
    case CALL_RECEIVE:
        return kind_of_receive(answer);
    case CALL_TAKE:
        return answer->refusal == 0 ? "take" : "take, nothing waiting";
    case CALL_SWEEP:
        return answer->pairs == 0 ? "sweep, all freed" : "sweep, none freed";
    default:
        return "read";
    }
}

static bool measure(enum mode mode)
{
    struct bench_answer plain, ours;
    size_t plain_octets, our_octets;

    plain_octets = run(mode, bench_plain[bench_call.which]);
    plain = bench_call.answer;
    our_octets = run(mode, bench_ours[bench_call.which]);
    ours = bench_call.answer;
    say(mode, kind_of(&plain), "plain", plain_octets);
    say(mode, kind_of(&ours), "ours", our_octets);
    return memcmp(&plain, &ours, sizeof plain) == 0;
}

/* ---- A batch ------------------------------------------------------------- */

/* What was measured of an item, by itself. */
struct measured {
    const char *kind;
    size_t plain_octets, our_octets;
};

static bool measure_item(enum mode mode, size_t item, struct measured *of)
{
    struct bench_answer plain;
    bool alike;

    batch_put_item(item);
    of->plain_octets = run(mode, bench_plain[CALL_RECEIVE]);
    plain = bench_call.answer;
    of->our_octets = run(mode, bench_ours[CALL_RECEIVE]);
    alike = memcmp(&plain, &bench_call.answer, sizeof plain) == 0;
    of->kind = kind_of_receive(&bench_call.answer);
    bench_ours_after_item(item);
    return alike;
}

/* Of what its items are, if they are all alike. */
static void name_batch(const struct measured *items, char *name, size_t room)
{
    const char *kind = strchr(items[0].kind, ' ') + 1;

    for (size_t i = 1; i < bench_batch.items; i++) {
        if (items[i].kind != items[0].kind)
            kind = "mixed";
    }
    snprintf(name, room, "batch of %zu, %s", bench_batch.items, kind);
}

/* The lines are printed in the order of the marks. */
static bool measure_batch(enum mode mode)
{
    static struct measured items[TRACE_MOST_ITEMS];
    char name[80];
    size_t octets;
    bool alike = true;

    bench_ours_before();
    for (size_t i = 0; i < bench_batch.items; i++)
        alike = measure_item(mode, i, &items[i]) && alike;
    bench_ours_again();
    octets = run(mode, bench_ours_many);
    name_batch(items, name, sizeof name);
    for (size_t i = 0; i < bench_batch.items; i++) {
        say(mode, name, "plain", items[i].plain_octets);
        say(mode, name, "ours", items[i].our_octets);
    }
    say(mode, name, "batch", octets);
    return alike && bench_ours_alike();
}

/* ---- Lines --------------------------------------------------------------- */

/* Octets, and the numbers behind them. */
static bool take_octets(const char *forms, const struct trace_word *words,
                        uint32_t *numbers)
{
    return trace_octets(words[0], bench_call.octets, &bench_call.count) &&
           trace_numbers(words + 1, forms + 1, numbers);
}

/* Numbers, and octets and the mission where there are such. */
static bool take_arguments(const char *forms, const struct trace_call *call)
{
    const char *octets = strchr(forms, 'o');
    const char *mission = strchr(forms, 'M');
    uint32_t *numbers = bench_call.numbers;

    bench_call.mission = 0;
    if (call->count != 1 + strlen(forms) ||
        !trace_numbers(call->words + 1, forms, numbers) ||
        (octets != NULL &&
         !take_octets(octets, call->words + 1 + (octets - forms),
                      numbers + (octets - forms))))
        return false;
    return mission == NULL || trace_mission(call->words[1 + (mission - forms)],
                                            &bench_call.mission);
}

/* `new` and `records`. */
static bool make_anew(void)
{
    bool is_new = bench_call.which == LINE_NEW;

    if (!is_new && bench_call.which != LINE_RECORDS)
        return false;
    bench_call.records = is_new ? TRACE_RECORDS : bench_call.numbers[1];
    if (bench_call.records > TRACE_RECORDS)
        return false;
    bench_plain_records();
    bench_ours_records();
    if (is_new) {
        bench_plain_new();
        bench_ours_new();
    }
    return true;
}

/* False where the two differ, or the bench does not make such a call. */
static bool make_call(enum mode mode)
{
    if (bench_call.which > CALLS)
        return make_anew();
    if (bench_ours[bench_call.which] != NULL)
        return measure(mode);
    if (call_facts[bench_call.which].kind != KIND_SETTING)
        return false;
    bench_plain_set();
    bench_ours_set();
    return true;
}

static bool make_line(enum mode mode, const struct trace_call *call)
{
    bench_call.which = trace_call_of(call->words[0]);
    if (bench_call.which == CALL_RECEIVE_MANY && call->count == 8)
        return batch_take(call->words + 1) && measure_batch(mode);
    return bench_call.which != CALLS &&
           take_arguments(call_facts[bench_call.which].arguments, call) &&
           make_call(mode);
}

static bool make_lines(enum mode mode)
{
    char *line = NULL;
    size_t room = 0;
    ssize_t got;
    bool good = true;

    while (good && (got = getline(&line, &room, stdin)) > 0) {
        size_t length = (size_t)got - (line[got - 1] == '\n');
        struct trace_call call;
        enum trace_kind kind = trace_cut(line, length, &call);

        good = kind == TRACE_NOTHING ||
               (kind == TRACE_CALL && make_line(mode, &call));
        if (!good)
            printf("bench: FAILED: not measured alike: %.*s\n", (int)length,
                   line);
    }
    free(line);
    return good && !ferror(stdin);
}

static const char HELP[] =
    "usage: bench [--help | --version] count|stack < TRACE\n"
    "       bench state\n"
    "\n"
    "Makes the calls of a trace (docs/TRACE.md) on the library and on the\n"
    "plain C implementation. `make bench` calls it and says what it found.\n"
    "    count  each measured call between two marks, for an emulator's log\n"
    "    stack  each measured call, with the octets of stack it has written to\n"
    "    state  the octets of board and missions, and of a record\n"
    "\n"
    "Status: 0 done; 1 the two answered a call differently, or a line is not\n"
    "understood, or the input failed; 2 bad usage, or the output failed.\n";

int main(int count, char **arguments)
{
    static const struct program PROGRAM = {"bench", HELP, true};
    int status = options_status(&PROGRAM, arguments + (count > 0));
    enum mode mode;

    if (status != OPTIONS_GO_ON)
        return status;
    if (count == 2 && strcmp(arguments[1], "state") == 0) {
        printf("ours\t%zu\nplain\t%zu\n"
               "ours, a record\t%zu\nplain, a record\t%zu\n",
               bench_our_state(), bench_plain_state(), bench_our_record(),
               bench_plain_record());
        return options_end(&PROGRAM, 0);
    }
    if (count != 2 || (strcmp(arguments[1], "count") != 0 &&
                       strcmp(arguments[1], "stack") != 0)) {
        fputs("bench: say one of count, stack and state\n"
              "bench: try --help\n",
              stderr);
        return 2;
    }
    mode = arguments[1][0] == 'c' ? COUNT : STACK;
    say(mode, "nothing", "nothing", run(mode, bench_nothing));
    return options_end(&PROGRAM, make_lines(mode) ? 0 : 1);
}
