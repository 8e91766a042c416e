/*
 * foretold.c: at which take an entry goes out, foretold while it waits (W-213).
 *
 * An entry that is placed on a port with r entries before it, and h of higher
 * precedence entering while it waits, is handed out at the take numbered
 * r + h + 1 of that port after its placing. Before it are those of its own or a
 * higher precedence. Each entry is held to this number; one that `foretell`
 * names is told as well.
 *
 * The books are the program's own. What entered is known by the answer of
 * hj_receive and the header that came, what left by the answer of hj_take. The
 * relay is never asked what waits, or in which order. A take that is refused,
 * and a take of another port, stand in no book of this port.
 *
 * The awkward case is an entry that stays although its take is made: it may
 * never go out. So it is found out at that take, and not when it goes.
 */
#include "foretold.h"

#include <inttypes.h>
#include <stdio.h>
#include <string.h>

#include "line.h"
#include "told.h"

/* One copy on one port. A slot waits at most once on a port. */
struct entry {
    bool waits, told;
    uint32_t precedence, octets;
    uint32_t before; /* entries that stood before it when it was placed */
    uint32_t higher; /* those of higher precedence that entered since */
    uint32_t ahead;  /* octets of both */
    uint32_t takes;  /* takes of the port since it was placed */
};

static struct entry entries[MOST_NODES][HJ_PORTS][SLOTS];
static uint32_t kept, broken;

uint32_t foretold_kept(void)
{
    return kept;
}

uint32_t foretold_count(void)
{
    return kept + broken;
}

static uint32_t due(const struct entry *entry)
{
    return entry->before + entry->higher + 1;
}

/* ---- What is told ------------------------------------------------------ */

static void tell_due(uint32_t node, uint32_t port, uint32_t slot)
{
    const struct entry *entry = &entries[node][port][slot];
    uint32_t bits = nodes[node].wires[port].bits_per_second;
    uint64_t tenths = (wire_microseconds(entry->ahead, bits) + 50) / 100;

    printf("%14sforetold: ", "");
    told_data(&node_kept(&nodes[node], port, slot)->came);
    printf(" goes out at take %" PRIu32 " + %" PRIu32 " + 1 = %" PRIu32
           " of port %" PRIu32 "; made since its placing: %" PRIu32 "\n",
           entry->before, entry->higher, due(entry), port, entry->takes);
    printf("%14s%" PRIu32 " octets go before it: %" PRIu64 ".%04" PRIu64
           " s at %" PRIu32 " bit/s\n",
           "", entry->ahead, tenths / 10000, tenths % 10000, bits);
}

static void tell_take(uint32_t node, uint32_t port, uint32_t slot)
{
    printf("%14stake %" PRIu32 " of port %" PRIu32 " since the placing of ", "",
           entries[node][port][slot].takes, port);
    told_data(&node_kept(&nodes[node], port, slot)->came);
    puts("");
}

static void tell_end(uint32_t node, uint32_t port, uint32_t slot, bool out)
{
    const struct entry *entry = &entries[node][port][slot];
    bool right = out && entry->takes == due(entry);

    printf("   %s (take %" PRIu32 "): %s port %" PRIu32 " %s ",
           right ? "as foretold" : "NOT AS FORETOLD", due(entry),
           nodes[node].name, port, out ? "hands out" : "keeps");
    told_data(&node_kept(&nodes[node], port, slot)->came);
    printf(" at take %" PRIu32 "\n", entry->takes);
}

/* ---- What enters and what leaves --------------------------------------- */

/* A newcomer of so many octets goes before this one. */
static void overtake(uint32_t node, uint32_t port, uint32_t slot,
                     uint32_t octets)
{
    struct entry *entry = &entries[node][port][slot];

    entry->higher++;
    entry->ahead += octets;
    if (entry->told)
        tell_due(node, port, slot);
}

static void enter(uint32_t node, uint32_t port, uint32_t slot,
                  const struct kept *kept)
{
    const struct datagram *came = &kept->came;
    struct entry *queue = entries[node][port];
    struct entry newcomer = {.waits = true,
                             .octets = kept_copy_octets(kept, port)};

    newcomer.precedence = hj_read(came->octets, came->length).fields.precedence;
    for (uint32_t other = 0; other < SLOTS; other++) {
        if (!queue[other].waits)
            continue;
        if (queue[other].precedence < newcomer.precedence) {
            overtake(node, port, other, newcomer.octets);
        } else {
            newcomer.before++;
            newcomer.ahead += queue[other].octets;
        }
    }
    queue[slot] = newcomer;
}

void foretold_enter(uint32_t node, uint32_t slot, const struct kept *kept)
{
    for (uint32_t port = 0; port < HJ_PORTS; port++) {
        if (hj_took(kept->verdict) >> port & 1)
            enter(node, port, slot, kept);
    }
}

/* The port handed out one more: this entry, or another before it. */
static void count_take(uint32_t node, uint32_t port, uint32_t slot, bool out)
{
    struct entry *entry = &entries[node][port][slot];
    uint32_t take = ++entry->takes;
    bool wrong = out ? take < due(entry) : take == due(entry);

    if (entry->told)
        tell_take(node, port, slot);
    if (wrong || (out && entry->told))
        tell_end(node, port, slot, out);
    kept += out && take == due(entry);
    broken += wrong;
    entry->waits = !out;
}

void foretold_take(uint32_t node, uint32_t port, uint32_t slot)
{
    if (!entries[node][port][slot].waits) {
        printf("   NOT AS FORETOLD: %s port %" PRIu32 " hands out slot %" PRIu32
               ", which does not wait there\n",
               nodes[node].name, port, slot);
        broken++;
    }
    for (uint32_t other = 0; other < SLOTS; other++) {
        if (entries[node][port][other].waits)
            count_take(node, port, other, other == slot);
    }
}

/* ---- The word ---------------------------------------------------------- */

static bool has_data(uint32_t node, uint32_t port, uint32_t slot,
                     const char *text)
{
    const struct datagram *came = &node_kept(&nodes[node], port, slot)->came;
    uint32_t data = came->length - came->header;

    return strlen(text) == data &&
           memcmp(text, came->octets + came->header, data) == 0;
}

void foretell(void)
{
    uint32_t node = line_node();
    uint32_t port = line_port();
    const char *text = line_text("the data as \"text\"");
    uint32_t slot = 0;

    line_end();
    if (!nodes[node].wires[port].linked)
        line_refuse("a port with a link", nodes[node].name);
    while (slot < SLOTS && !(entries[node][port][slot].waits &&
                             has_data(node, port, slot, text)))
        slot++;
    if (slot == SLOTS)
        line_refuse("the data of an entry that waits on the port", text);
    entries[node][port][slot].told = true;
    tell_due(node, port, slot);
}
