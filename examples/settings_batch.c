/*
 * settings_batch: applies a table of settings for two missions that share a
 * board, says of each that was refused the number and its meaning in words,
 * reads back what stands, and asks which route serves an address, for each
 * mission.
 *
 * A refused setting changes nothing, so the table goes on after it, and what is
 * read back is what the others left. The table has settings that are refused on
 * purpose, one and more for each number that a setting can get.
 *
 * The awkward case is the order: a route, group or path may name only ports that
 * are set up, so the ports come first. The route to port 3 below comes too early
 * and is refused by 21; once port 3 is set up the same route is taken.
 */
#include <stdio.h>

#include "harpjuniper.h"

#define PLACES 64 /* of the list, at most HJ_ROUTES */

static hj_board board;
static hj_mission missions[HJ_MISSIONS];
static hj_record routes[PLACES];

/* What calls are lent, each with its count. */
#define BOARD &board, HJ_BOARD_WORDS
#define MISSION(number) &missions[number], HJ_MISSION_WORDS
#define ROUTES routes, PLACES

/* ---- Settings as rows of a table ----------------------------------------- */

enum kind { ROUTER, PORT, ROUTE, GROUP, PATH };

struct setting {
    enum kind kind;
    uint32_t mission;    /* whose port, route, group or path it is */
    uint32_t numbers[6]; /* the call's arguments after what is lent */
};

static const char *const KINDS[] = {"router", "port", "route", "group", "path"};

static const struct setting BATCH[] = {
    {ROUTER, 0, {1}},
    {ROUTER, 0, {2}}, /* neither 0 nor 1 */
    {PORT, 0, {0, 0x0a0a0a02, 0xffffff00, 8191}},
    {PORT, 0, {1, 0x0a0a0b02, 0xffffff00, 1500}},
    {PORT, 0, {2, 0x0a0a0bff, 0xffffff00, 1500}}, /* a broadcast address */
    {PORT, 0, {2, 0x0a0a0c02, 0xffff0000, 1500}}, /* 16 ones in net 10 */
    {PORT, 0, {2, 0x0a0a0c02, 0xffffff00, 8192}}, /* the MTU is too large */
    {PORT, 2, {2, 0x0a0a0c02, 0xffffff00, 1500}}, /* there is no mission 2 */
    {PORT, 1, {4, 0x0a0a0c02, 0xffffff00, 1500}},
    {PORT, 0, {4, 0x0a0a0c02, 0xffffff00, 1500}}, /* it is written once */
    {ROUTE, 0, {0, 0x00000000, 0x00000000, 1, HJ_UP, HJ_CAPABLE_NONE}},
    {ROUTE, 0, {1, 0x0a040900, 0xffffff00, 3, HJ_UP, HJ_CAPABLE_BOTH}}, /* early */
    {PORT, 0, {3, 0xc0000202, 0xffffff00, 576}},
    {ROUTE, 0, {1, 0x0a040900, 0xffffff00, 3, HJ_UP, HJ_CAPABLE_BOTH}},
    {ROUTE, 0, {2, 0x0a040900, 0xffffff00, 0, HJ_UP, HJ_CAPABLE_NONE}}, /* same */
    {ROUTE, 0, {2, 0x0a040800, 0xffffff00, 0, HJ_UP, 3}}, /* both is 4 */
    {ROUTE, 1, {2, 0x0a040900, 0xffffff00, 3, HJ_UP, 0}}, /* the other's port */
    {ROUTE, 1, {2, 0x0a040900, 0xffffff00, 4, HJ_UP, HJ_CAPABLE_NONE}},
    {ROUTE, 1, {PLACES, 0x0a040800, 0xffffff00, 4, HJ_UP, 0}}, /* no such place */
    {GROUP, 0, {0, 0xe0000105, 0x0a, 0x01}}, /* to ports 1 and 3 */
    {GROUP, 1, {0, 0xe0000105, 0x0a, 0x00}}, /* they are not mission 1's */
    {GROUP, 1, {0, 0xe0000105, 0x10, 0x10}},
    {PATH, 0, {0, 0x0a000007, 0x02, 1}},
};

static uint32_t apply(const struct setting *setting)
{
    const uint32_t *n = setting->numbers;
    uint32_t mission = setting->mission;

    switch (setting->kind) {
    case ROUTER:
        return hj_set_router(BOARD, n[0]);
    case PORT:
        return hj_set_port(BOARD, n[0], n[1], n[2], n[3], mission);
    case ROUTE:
        return hj_set_route(BOARD, ROUTES, n[0], n[1], n[2], n[3], n[4], n[5],
                            mission);
    case GROUP:
        return hj_set_group(BOARD, MISSION(mission), n[0], n[1], n[2], n[3]);
    default:
        return hj_set_path(BOARD, MISSION(mission), n[0], n[1], n[2], n[3]);
    }
}

static const char *in_words(uint32_t refusal)
{
    switch (refusal) {
    case HJ_BAD_NUMBER:
        return "no such place or port, or the port is not set up for it";
    case HJ_BAD_MASK:
        return "mask or prefix bits";
    case HJ_SAME_ENTRY:
        return "the same entry stands in another place";
    case HJ_BAD_CODE:
        return "code, size or mission out of range, or the other's port";
    case HJ_WRONG_CLASS:
        return "wrong class of address";
    case HJ_PORT_SET_UP:
        return "the port is set up, and is written once";
    default:
        return "a number that no setting gives";
    }
}

/* How many settings of the table were refused. */
static unsigned apply_batch(void)
{
    unsigned refused = 0;

    for (size_t row = 0; row < sizeof BATCH / sizeof *BATCH; row++) {
        uint32_t refusal = apply(&BATCH[row]);

        if (refusal == HJ_DONE)
            continue;
        refused++;
        printf("row %u, %s %u of mission %u: refused by %u:\n  %s\n",
               (unsigned)row, KINDS[BATCH[row].kind],
               (unsigned)BATCH[row].numbers[0], (unsigned)BATCH[row].mission,
               (unsigned)refusal, in_words(refusal));
    }
    return refused;
}

/* ---- What stands ---------------------------------------------------------- */

static void print_address(const char *before, uint32_t address)
{
    printf("%s%u.%u.%u.%u", before, (unsigned)(address >> 24),
           (unsigned)(address >> 16 & 0xff), (unsigned)(address >> 8 & 0xff),
           (unsigned)(address & 0xff));
}

static void print_ports(void)
{
    for (uint32_t number = 0; number < HJ_PORTS; number++) {
        hj_port port = hj_get_port(BOARD, number);

        if (!port.ready)
            continue;
        printf("port %u: ", (unsigned)number);
        print_address("", port.address);
        print_address(" mask ", port.mask);
        printf(" MTU %u, mission %u\n", (unsigned)port.mtu,
               (unsigned)port.mission);
    }
}

static void print_routes(void)
{
    for (uint32_t place = 0; place < PLACES; place++) {
        hj_route route = hj_get_route(ROUTES, place);

        if (!route.filled)
            continue;
        printf("route %u: ", (unsigned)place);
        print_address("", route.prefix);
        print_address(" mask ", route.mask);
        printf(" port %u availability %u capabilities %u, mission %u\n",
               (unsigned)route.port, (unsigned)route.availability,
               (unsigned)route.capabilities, (unsigned)route.mission);
    }
}

static void print_groups(uint32_t mission)
{
    for (uint32_t place = 0; place < HJ_GROUPS; place++) {
        hj_group group = hj_get_group(MISSION(mission), place);

        if (!group.filled)
            continue;
        printf("group %u: ", (unsigned)place);
        print_address("", group.address);
        printf(" send %u subscribed %u\n", (unsigned)group.send,
               (unsigned)group.subscribed);
    }
}

static void print_paths(uint32_t mission)
{
    for (uint32_t place = 0; place < HJ_PATHS; place++) {
        hj_path_place path = hj_get_path(MISSION(mission), place);

        if (!path.filled)
            continue;
        printf("path %u: ", (unsigned)place);
        print_address("", path.path);
        printf(" send %u here %u\n", (unsigned)path.send, (unsigned)path.here);
    }
}

/* Which of the mission's routes serves an address. */
static void print_service(uint32_t mission, uint32_t address)
{
    hj_found found = hj_search(BOARD, MISSION(mission), ROUTES, address);

    print_address("to ", address);
    if (hj_is_found(found))
        printf(": route %u, %u ones, port %u\n",
               (unsigned)hj_found_place(found), (unsigned)hj_found_ones(found),
               (unsigned)hj_found_port(found));
    else
        puts(": no route");
}

/* What is the mission's own, and what it sees of the list. */
static void print_mission(uint32_t mission)
{
    printf("mission %u\n", (unsigned)mission);
    print_groups(mission);
    print_paths(mission);
    print_service(mission, 0x0a04090e);
    print_service(mission, 0xc0000301);
}

int main(void)
{
    uint32_t refusal = hj_fresh_board(BOARD);
    unsigned refused;

    for (uint32_t number = 0; number < HJ_MISSIONS; number++)
        refusal |= hj_fresh_mission(MISSION(number), number);
    if (refusal != HJ_DONE)
        return 1;
    refused = apply_batch();
    printf("%u settings, %u refused; what stands:\n",
           (unsigned)(sizeof BATCH / sizeof *BATCH), refused);
    puts(hj_value(hj_get_router(BOARD)) ? "router" : "host");
    print_ports();
    print_routes();
    for (uint32_t number = 0; number < HJ_MISSIONS; number++)
        print_mission(number);
    return 0;
}
