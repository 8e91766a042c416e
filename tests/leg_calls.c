/*
 * leg_calls.c: what a C program is told of the headers for the next leg, and
 * finds in the output: for each port its own header and its length, where the
 * data begin, which headers are rewritten. A trace shows the headers alone.
 *
 * The octets around the output, and each of its own that is in no header, are
 * compared too. Of every copy it is tried whether it reads back as a datagram.
 */
#include <stdbool.h>
#include <string.h>

#include "router.h"

/* The datagram at hand. */
static struct {
    size_t count;
    uint8_t octets[HJ_MOST_LENGTH + 1];
} came;

/* ---- Setting up ---------------------------------------------------------- */

static void set_route(uint32_t place, uint32_t prefix, uint32_t port,
                      uint32_t capabilities)
{
    expect(hj_set_route(BOARD, ROUTES, place, prefix, 0xffffffff, port, HJ_UP,
                        capabilities, 0) == HJ_DONE,
           "set_route");
}

static uint8_t digit(char character)
{
    return (uint8_t)(character <= '9' ? character - '0'
                                      : character - 'a' + 10);
}

static size_t put_octets(const char *hex, uint8_t *octets)
{
    size_t count = 0;

    for (; *hex != '\0'; hex += 2)
        octets[count++] = (uint8_t)(digit(hex[0]) << 4 | digit(hex[1]));
    return count;
}

/* A header, and so many octets of data behind it that its length field says
 * so. */
static void datagram(const char *header)
{
    size_t count = put_octets(header, came.octets);

    came.count = (size_t)(came.octets[0] & 31) << 8 | came.octets[1];
    for (size_t i = count; i < came.count; i++)
        came.octets[i] = (uint8_t)i;
}

/* ---- Receiving, and what is due ------------------------------------------ */

static hj_verdict receive_with(size_t room)
{
    hj_arrival arrival = {0, 7, 0};

    clear_output();
    return hj_receive(BOARD, MISSION, ROUTES, arrival, came.octets, came.count,
                      output, room);
}

static hj_verdict receive(const char *header)
{
    datagram(header);
    return receive_with(HJ_OUTPUT_ROOM);
}

static void due_header(uint32_t port, const char *header)
{
    put_octets(header, due + GUARD + HJ_HEADER_ROOM * port);
}

static void expect_output(const char *what)
{
    expect(memcmp(space, due, sizeof space) == 0, what);
}

/* The copy that a port sends, the header and behind it the data, reads back,
 * and has no other length than its length field says. */
static hj_reading expect_copy(hj_verdict verdict, uint32_t port,
                              const char *what)
{
    static uint8_t copy[HJ_MOST_LENGTH + HJ_HEADER_ROOM];
    uint32_t header = hj_header_octets(verdict, port);
    size_t data = came.count - hj_data_from(verdict);
    hj_reading reading;

    memcpy(copy, hj_header(output, port), header);
    memcpy(copy + header, came.octets + hj_data_from(verdict), data);
    reading = hj_read(copy, header + data);
    expect(reading.refusal == HJ_DONE && reading.header == header &&
               reading.length == header + data,
           what);
    return reading;
}

/* ---- The parts of a verdict ---------------------------------------------- */

/* A number of its own in each part. */
static void check_parts(void)
{
    const hj_verdict verdict = 0x2418172a3c050b1au;

    expect(hj_ended_by(verdict) == 0x1a, "ended by");
    expect(hj_local(verdict) == 0x0b, "local");
    expect(hj_onward(verdict) == 0x05, "onward");
    expect(hj_took(verdict) == 0x3c, "took");
    expect(hj_dropped(verdict) == 0x2a, "dropped");
    expect(hj_data_from(verdict) == 0x17, "data from");
    expect(hj_rewritten_octets(verdict) == 0x18, "rewritten octets");
    expect(hj_rewritten(verdict) == 0x24, "rewritten");
}

/* Ports 2 to 5 took, of which 2 and 5 have the rewritten header. */
static void check_header_octets(void)
{
    static const uint32_t OCTETS[HJ_PORTS] = {0,    0,    0x18, 0x17,
                                              0x17, 0x18, 0,    0};
    static const uint32_t NO_PORT[] = {8, 10, 31, 32, 34, 37, 64, UINT32_MAX};
    const hj_verdict verdict = 0x2418172a3c050b1au;

    for (uint32_t port = 0; port < HJ_PORTS; port++) {
        expect(hj_header_octets(verdict, port) == OCTETS[port],
               "header octets of a port");
        expect(hj_header(output, port) == output + 50 * port,
               "where a port's header stands");
    }
    for (size_t i = 0; i < sizeof NO_PORT / sizeof *NO_PORT; i++)
        expect(hj_header_octets(verdict, NO_PORT[i]) == 0, "no such port");
    /* A rewritten header for a port that took none is no header. */
    expect(hj_header_octets(0x8018170000000000u, 7) == 0, "took no entry");
    expect(HJ_HEADER_ROOM == 50 && HJ_OUTPUT_ROOM == 400, "the rooms");
}

/* ---- Headers kept and rewritten ------------------------------------------ */

static void check_kept(void)
{
    hj_verdict verdict;

    set_up();
    set_route(0, 0x0a0a0a0e, 5, HJ_CAPABLE_NONE);
    verdict = receive("200a1a600e0440");
    expect(hj_took(verdict) == 0x20 && hj_rewritten(verdict) == 0 &&
               hj_rewritten_octets(verdict) == 0 &&
               hj_data_from(verdict) == 7 && hj_header_octets(verdict, 5) == 7,
           "kept");
    due_header(5, "200a1a600e043f");
    expect_output("kept: its header, and no other octet");
    expect_copy(verdict, 5, "kept: the copy");
    expect(hj_header_octets(verdict, 0) == 0 &&
               hj_header_octets(verdict, 3) == 0,
           "no header for those that took none");
}

static void check_rewritten(void)
{
    hj_verdict verdict;
    hj_reading copy;

    set_up();
    set_route(0, 0x0a0a0a0e, 3, HJ_CAPABLE_BOTH);
    verdict = receive("20081a400e04");
    expect(hj_took(verdict) == 8 && hj_rewritten(verdict) == 8 &&
               hj_rewritten_octets(verdict) == 15 &&
               hj_data_from(verdict) == 6 &&
               hj_header_octets(verdict, 3) == 15,
           "rewritten");
    due_header(3, "20111b610a0a0a0e0a0a0a04405c67");
    expect_output("rewritten: its header, and no other octet");
    copy = expect_copy(verdict, 3, "rewritten: the copy");
    expect(copy.length == 17 && copy.fields.destination_low == 0x0a0a0a0e &&
               copy.fields.source_low == 0x0a0a0a04 &&
               copy.fields.has_hop_count == 1 && copy.fields.hop_count == 64 &&
               copy.fields.has_checksum == 1,
           "rewritten: its fields");
}

/* A longer control field than need be is kept where the header is, and is
 * shortened where it is rewritten: by the header of the same length. */
static void check_same_length(void)
{
    hj_verdict verdict;

    set_up();
    set_route(0, 0x0a0a0a0e, 5, HJ_CAPABLE_HOP_COUNT);
    set_route(1, 0x0a0a0a10, 5, HJ_CAPABLE_NONE);
    verdict = receive("20071ac0000e04");
    expect(hj_rewritten(verdict) == 0x20 &&
               hj_rewritten_octets(verdict) == 7 && hj_data_from(verdict) == 7,
           "rewritten, and as long as before");
    due_header(5, "20071a600e0440");
    expect_output("a shorter control field, and a hop count");
    verdict = receive("20071ac0001004");
    expect(hj_rewritten(verdict) == 0 && hj_header_octets(verdict, 5) == 7,
           "a longer control field is kept");
    due_header(5, "20071ac0001004");
    expect_output("as it came");
}

static void check_two_forms(void)
{
    hj_verdict verdict;
    hj_reading near, far;

    set_up();
    verdict = receive("20091a40ff04");
    expect(hj_local(verdict) == HJ_DELIVERED && hj_took(verdict) == 0x28 &&
               hj_rewritten(verdict) == 8 && hj_data_from(verdict) == 6 &&
               hj_header_octets(verdict, 3) == 12 &&
               hj_header_octets(verdict, 5) == 6,
           "two forms of one datagram");
    due_header(3, "200f1a410a0a0aff0a0a0a04");
    due_header(5, "20091a40ff04");
    expect_output("two headers, and no other octet");
    far = expect_copy(verdict, 3, "the copy into another domain");
    near = expect_copy(verdict, 5, "the copy within the domain");
    expect(far.fields.destination_low == 0x0a0a0aff &&
               near.fields.destination_low == 0xff,
           "one destination, in four octets and in one");
}

/* Each of the other seven ports has its stretch. */
static void check_all_ports(void)
{
    hj_verdict verdict;

    set_up();
    set_port(1, 0x0a0a0a08, 8191);
    set_port(2, 0x0a0a0c02, 8191);
    set_port(4, 0x0a0a0d02, 8191);
    set_port(6, 0xc0000201, 8191);
    set_port(7, 0x0a0a0a0a, 8191);
    verdict = receive("20061a40ff04");
    expect(hj_took(verdict) == 0xfe && hj_rewritten(verdict) == 0x5c,
           "seven ports");
    for (uint32_t port = 1; port < HJ_PORTS; port++) {
        bool far = (hj_rewritten(verdict) >> port & 1) != 0;

        due_header(port, far ? "200c1a410a0a0aff0a0a0a04" : "20061a40ff04");
        expect(hj_header_octets(verdict, port) == (far ? 12u : 6u),
               "the octets of each");
    }
    expect_output("seven headers, and no other octet");
}

/* ---- Where the data begin ------------------------------------------------ */

/* The verdict's two halves, and nothing else of it but where the data begin. */
static void expect_ends(const char *header, uint32_t local, uint32_t onward,
                        uint32_t data_from, const char *what)
{
    hj_verdict verdict = receive(header);

    expect(verdict ==
               ((hj_verdict)data_from << 40 | onward << 16 | local << 8),
           what);
    expect_output(what);
}

static void check_data_from(void)
{
    set_up();
    set_route(0, 0x0a0a0a0e, 3, HJ_CAPABLE_NONE);
    expect(hj_set_path(BOARD, MISSION, 0, 0x0a0a0a07, 8, 0) == HJ_DONE,
           "set_path");
    expect_ends("20081a400204", HJ_DELIVERED, HJ_NOT_ASKED, 6, "delivered");
    expect_ends("200c1a410a0a0a060a0a0a04", HJ_DELIVERED, HJ_NOT_ASKED, 12,
                "delivered, four octets");
    expect_ends("20090ac0000204", HJ_UNKNOWN_TP_ID, HJ_NOT_ASKED, 7, "26");
    expect_ends("20061a401404", HJ_LOCAL_NO, HJ_NO_ROUTE, 6, "11");
    expect_ends("20071a600e0401", HJ_LOCAL_NO, HJ_HOPS_USED_UP, 7, "10");
    expect_ends("20041207", HJ_LOCAL_NO, HJ_LEAVES_DOMAIN, 4, "13");
    expect(hj_set_router(BOARD, 0) == HJ_DONE, "a host");
    expect_ends("20061a401404", HJ_LOCAL_NO, HJ_NOT_FOR_US, 6, "9");
}

/* With a refusal it is 0, like all else. */
static void check_refused(void)
{
    set_up();
    expect(receive("20051a400e04") == HJ_BAD_LENGTH, "3");
    expect_output("nothing is written with 3");
    expect(receive("20061a40fe04") == HJ_BAD_ADDRESS, "6");
    expect_output("nor with 6");
}

static void check_full(void)
{
    hj_verdict verdict = 0;

    set_up();
    set_route(0, 0x0a0a0a0e, 3, HJ_CAPABLE_BOTH);
    for (int i = 0; i < HJ_QUEUE; i++)
        verdict = receive("20061a400e04");
    expect(hj_rewritten(verdict) == 8, "the 32nd entry");
    verdict = receive("20061a400e04");
    expect(hj_onward(verdict) == HJ_QUEUES_FULL && hj_dropped(verdict) == 8 &&
               hj_rewritten(verdict) == 0 &&
               hj_rewritten_octets(verdict) == 0 &&
               hj_data_from(verdict) == 6 && hj_header_octets(verdict, 3) == 0,
           "15: nobody has a rewritten header");
    expect_output("and nothing is written");
    verdict = receive("20061a40ff04");
    expect(hj_took(verdict) == 0x20 && hj_dropped(verdict) == 8 &&
               hj_rewritten(verdict) == 0 && hj_rewritten_octets(verdict) == 0,
           "the port in another domain dropped its copy");
    due_header(5, "20061a40ff04");
    expect_output("the other's header alone");
}

/* ---- Rooms and sizes ----------------------------------------------------- */

static void check_room(void)
{
    static const size_t SHORT[] = {0, 1, 49, 50, 200, 399};

    set_up();
    set_route(0, 0x0a0a0a0e, 3, HJ_CAPABLE_NONE);
    datagram("20061a400e04");
    for (size_t i = 0; i < sizeof SHORT / sizeof *SHORT; i++) {
        expect(receive_with(SHORT[i]) == HJ_SHORT_OUTPUT, "17");
        expect_output("17 writes nothing");
    }
    expect(hj_counter(MISSION, HJ_IN_RECEIVES) == 0, "17 counts nothing");
    for (size_t room = HJ_OUTPUT_ROOM; room <= HJ_OUTPUT_ROOM + 100;
         room += 50) {
        expect(hj_took(receive_with(room)) == 8, "room enough");
        due_header(3, "200c1a410a0a0a0e0a0a0a04");
        expect_output("the same in more room");
    }
}

/* A datagram with so much data: its onward half, and what took it. */
static void expect_sent(const char *bare, size_t data, uint32_t took,
                        const char *what)
{
    size_t header = put_octets(bare, came.octets);
    hj_verdict verdict;

    came.count = header + data;
    came.octets[0] = (uint8_t)(1 << 5 | came.count >> 8);
    came.octets[1] = (uint8_t)came.count;
    verdict = receive_with(HJ_OUTPUT_ROOM);
    expect(hj_took(verdict) == took &&
               hj_onward(verdict) == (took != 0 ? HJ_SENT_ON : HJ_TOO_BIG),
           what);
    for (uint32_t port = 0; port < HJ_PORTS; port++) {
        if (took >> port & 1)
            expect_copy(verdict, port, what);
    }
}

static void check_mtu(void)
{
    set_up();
    set_port(1, 0x0a0a0c02, 20);
    set_port(2, 0x0a0a0a08, 14);
    set_route(0, 0x0a0a0a0e, 1, HJ_CAPABLE_NONE);
    set_route(1, 0x0a0a0a10, 1, HJ_CAPABLE_BOTH);
    set_route(2, 0x0a0a0a12, 2, HJ_CAPABLE_CHECKSUM);
    expect_sent("20061a400e04", 7, 2, "12 and 7 of 20");
    expect_sent("20061a400e04", 8, 2, "12 and 8 of 20");
    expect_sent("20061a400e04", 9, 0, "12 and 9 of 20");
    expect_sent("20061a401004", 4, 2, "15 and 4 of 20");
    expect_sent("20061a401004", 5, 2, "15 and 5 of 20");
    expect_sent("20061a401004", 6, 0, "15 and 6 of 20");
    expect_sent("20061a401204", 5, 4, "8 and 5 of 14");
    expect_sent("20061a401204", 6, 4, "8 and 6 of 14");
    expect_sent("20061a401204", 7, 0, "8 and 7 of 14");
    expect(hj_counter(MISSION, HJ_TOO_BIG_COUNT) == 3, "three too big");
}

/* Each port by its own size: port 1 is in another domain. */
static void check_mtu_of_each(void)
{
    set_up();
    set_port(1, 0x0a0a0c02, 20);
    set_port(2, 0x0a0a0a08, 20);
    expect(hj_set_group(BOARD, MISSION, 0, 0x0a0a0a0b, 6, 0) == HJ_DONE,
           "set_group");
    expect_sent("20061a400b04", 8, 6, "both");
    expect_sent("20061a400b04", 9, 4, "the port in the domain alone");
    expect_sent("20061a400b04", 14, 4, "still");
    expect_sent("20061a400b04", 15, 0, "none");
}

/* The length field has 13 bits, and the builder's limit on data is no limit
 * here. */
static void check_longest(void)
{
    set_up();
    set_port(1, 0x0a0a0c02, 8190);
    set_route(0, 0x2c010203, 3, HJ_CAPABLE_CHECKSUM);
    set_route(1, 0x2c010204, 1, HJ_CAPABLE_CHECKSUM);
    set_route(2, 0x0a0a0a0e, 3, HJ_CAPABLE_NONE);
    expect_sent("200c1a412c0102030a0a0a04", HJ_MOST_DATA + 1, 8,
                "8,142 octets of data");
    expect_sent("200c1a412c0102030a0a0a04", 8177, 8, "14 and 8,177: 8,191");
    expect_sent("200c1a412c0102030a0a0a04", 8178, 0, "14 and 8,178: 8,192");
    expect_sent("200c1a412c0102040a0a0a04", 8176, 2, "14 and 8,176 of 8,190");
    expect_sent("200c1a412c0102040a0a0a04", 8177, 0, "14 and 8,177 of 8,190");
    expect_sent("20061a400e04", 8179, 8, "12 and 8,179: 8,191");
    expect_sent("20061a400e04", 8180, 0, "12 and 8,180: 8,192");
}

int main(void)
{
    check_parts();
    check_header_octets();
    check_kept();
    check_rewritten();
    check_same_length();
    check_two_forms();
    check_all_ports();
    check_data_from();
    check_refused();
    check_full();
    check_room();
    check_mtu();
    check_mtu_of_each();
    check_longest();
    return expect_end("leg_calls");
}
