/*
 * beside.c: one mission on two nodes, side by side (W-208). The operator's
 * calls and that mission's were the same on both, the slots too; on one of them
 * the other mission has been busy. Then each answer, each header that was
 * written, each counter, each pair and what waits must be equal, and the table
 * shows that they are.
 */
#include "beside.h"

#include <inttypes.h>
#include <stdio.h>
#include <string.h>

#include "expect.h"
#include "line.h"
#include "names.h"

#define MOST_ANSWERS 200
#define WIDTH 62

/* One answer as it is shown, and the octets written; all else is zeros. */
struct answer {
    char text[120];
    hj_verdict verdict;
    uint8_t output[HJ_OUTPUT_ROOM + MOST_USER_DATA];
};

static struct {
    struct answer answers[MOST_ANSWERS];
    uint32_t count;
} books[MOST_NODES][HJ_MISSIONS];

void beside_scene(void)
{
    memset(books, 0, sizeof books);
}

/* The next answer of the mission that has the port; the last place again where
 * all are full. */
static struct answer *next_answer(const struct node *node, uint32_t port)
{
    uint32_t mission = node_mission(node, port);
    uint32_t *count = &books[node - nodes][mission].count;
    struct answer *answer;

    if (*count < MOST_ANSWERS)
        ++*count;
    answer = &books[node - nodes][mission].answers[*count - 1];
    memset(answer, 0, sizeof *answer);
    return answer;
}

void beside_receive(const struct node *node, hj_arrival arrival,
                    const struct kept *kept)
{
    struct answer *answer = next_answer(node, arrival.port);
    hj_verdict verdict = kept->verdict;

    snprintf(answer->text, sizeof answer->text,
             "port %u, slot %u: ended %u, here %u, onward %u, took %u, dropped "
             "%u",
             (unsigned)arrival.port, (unsigned)arrival.slot,
             (unsigned)hj_ended_by(verdict), (unsigned)hj_local(verdict),
             (unsigned)hj_onward(verdict), (unsigned)hj_took(verdict),
             (unsigned)hj_dropped(verdict));
    answer->verdict = verdict;
    for (uint32_t port = 0; port < HJ_PORTS; port++)
        memcpy(answer->output + HJ_HEADER_ROOM * port,
               hj_header(kept->output, port), hj_header_octets(verdict, port));
}

void beside_echo(const struct node *node, hj_arrival arrival,
                 const struct kept *kept)
{
    struct answer *answer = next_answer(node, arrival.port);
    hj_verdict verdict = kept->verdict;

    snprintf(answer->text, sizeof answer->text,
             "port %u, slot %u: an echo: onward %u, took %u, dropped %u",
             (unsigned)arrival.port, (unsigned)arrival.slot,
             (unsigned)hj_onward(verdict), (unsigned)hj_took(verdict),
             (unsigned)hj_dropped(verdict));
    answer->verdict = verdict;
    memcpy(answer->output, kept->came.octets, hj_reply_octets(verdict));
}

void beside_take(const struct node *node, uint32_t port, hj_answer entry)
{
    struct answer *answer;

    if (hj_refusal(entry) != HJ_DONE)
        return;
    answer = next_answer(node, port);
    snprintf(answer->text, sizeof answer->text,
             "port %u: a take gives slot %u, precedence %u", (unsigned)port,
             (unsigned)hj_slot(entry), (unsigned)hj_precedence(entry));
}

/* ---- The table --------------------------------------------------------- */

/* A row; whether its two sides are equal. */
static bool row(const char *one, const char *other, bool equal)
{
    printf("   %-*s | %s%s\n", WIDTH, one, other,
           equal ? "" : "  NOT EQUAL");
    return equal;
}

static bool answer_row(const struct answer *one, const struct answer *other)
{
    return row(one->text, other->text, memcmp(one, other, sizeof *one) == 0);
}

static bool answer_rows(uint32_t one, uint32_t other, uint32_t mission)
{
    const struct answer *ones = books[one][mission].answers;
    const struct answer *others = books[other][mission].answers;
    uint32_t count = books[one][mission].count;
    bool equal = count == books[other][mission].count;

    if (count < books[other][mission].count)
        count = books[other][mission].count;
    for (uint32_t i = 0; i < count; i++)
        equal = answer_row(&ones[i], &others[i]) && equal;
    return equal;
}

static bool number_row(const char *name, uint32_t one, uint32_t other)
{
    char left[WIDTH + 1], right[WIDTH + 1];

    snprintf(left, sizeof left, "%s %" PRIu32, name, one);
    snprintf(right, sizeof right, "%s %" PRIu32, name, other);
    return row(left, right, one == other);
}

/* The pairs that they hold, place by place, where either holds any. */
static bool pairs_row(uint32_t one, uint32_t other, uint32_t mission)
{
    char left[WIDTH + 1], right[WIDTH + 1];
    uint32_t lefts = node_pairs(&nodes[one], mission);
    uint32_t rights = node_pairs(&nodes[other], mission);
    bool equal = true;

    for (uint32_t place = 0; place < HJ_PAIRS; place++) {
        hj_pair of_one = hj_get_pair(LENT_MISSION(&nodes[one], mission), place);
        hj_pair of_other =
            hj_get_pair(LENT_MISSION(&nodes[other], mission), place);

        equal = equal && memcmp(&of_one, &of_other, sizeof of_one) == 0;
    }
    snprintf(left, sizeof left, "pairs held: %" PRIu32, lefts);
    snprintf(right, sizeof right, "pairs held: %" PRIu32, rights);
    return (lefts == 0 && rights == 0) || row(left, right, equal);
}

/* The counters that either has, and what waits on the mission's ports. */
static bool number_rows(uint32_t one, uint32_t other, uint32_t mission)
{
    char name[40];
    bool equal = true;

    for (uint32_t i = 0; i < HJ_COUNTERS; i++) {
        uint32_t left = node_counter(&nodes[one], mission, i);
        uint32_t right = node_counter(&nodes[other], mission, i);

        if (left != 0 || right != 0)
            equal = number_row(COUNTER_NAMES[i], left, right) && equal;
    }
    equal = pairs_row(one, other, mission) && equal;
    for (uint32_t port = 0; port < HJ_PORTS; port++) {
        hj_port found = hj_get_port(LENT_BOARD(&nodes[one]), port);

        if (!found.ready || found.mission != mission)
            continue;
        snprintf(name, sizeof name, "waiting on port %u:", (unsigned)port);
        equal = number_row(name, node_waiting(&nodes[one], port),
                           node_waiting(&nodes[other], port)) &&
                equal;
    }
    return equal;
}

void beside(void)
{
    uint32_t one = line_node();
    uint32_t other = line_node();
    uint32_t mission = 0;
    bool equal;

    if (line_is("mission"))
        mission = line_number("a mission, 0 or 1", 0, 1);
    line_end();
    printf("   %-*s | %s, mission %" PRIu32 "\n", WIDTH, nodes[one].name,
           nodes[other].name, mission);
    equal = answer_rows(one, other, mission);
    equal = number_rows(one, other, mission) && equal;
    expect_said(equal);
    printf("   %s mission %" PRIu32 " is told the same by both\n",
           equal ? "as expected:" : "NOT AS EXPECTED:", mission);
}
