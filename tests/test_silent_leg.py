#!/usr/bin/env python3
"""build/silent-leg: on a scenario's net it names the leg that was cut, and none where it
was mended; what else can be silent is told apart as far as the settings go; and captured
datagrams give the same table. A run of old answers does not speak for a later one, nor a
reply for another destination. Bad lines and arguments are refused.
"""
import os
import re
import subprocess
import tempfile
import unittest

from built import LINKED

ROOT = os.path.dirname(os.path.dirname(os.path.abspath(__file__)))
STORY = os.path.join(ROOT, "scenarios/biocide.txt")
WAY = ("ControlRoom", "0", "10.2.2.14")
ROW = re.compile(r"^ *(\d+)  (\S+|not asked) +(\S+) +(\S+) +(\d+)/(\d+) +(\S+) +(\S+) +(\S+) +(\S+) +(\S+)(?:  (.*))?$",
                 re.M)

# Ground, three relays and a unit in a line. Near has a small MTU towards the ground.
LINE = """\
node Ground host
port Ground 0 10.1.1.4 255.255.255.0 1500
node Near router
port Near 0 10.1.1.2 255.255.255.0 %(mtu)s
port Near 1 10.2.2.2 255.255.255.0 1500
port Near 2 10.5.5.2 255.255.255.0 1500
route Near 0 10.0.0.0 255.0.0.0 1 up
route Near 1 10.1.1.4 255.255.255.255 0 up
node Mid router
port Mid 0 10.2.2.4 255.255.255.0 1500
port Mid 1 10.3.3.2 255.255.255.0 1500
port Mid 2 10.5.5.4 255.255.255.0 1500
route Mid 0 10.3.3.0 255.255.255.0 1 up
route Mid 1 10.1.1.0 255.255.255.0 0 up
node Unit host
port Unit 0 10.3.3.14 255.255.255.0 1500
route Unit 0 0.0.0.0 0.0.0.0 0 up
link Ground 0 Near 0 8000
link Near 1 Mid 0 800
link Mid 1 Unit 0 4000
"""


def run(*words, text="", wrong=None):
    """Status, standard output and standard error; on wrong relays where it is said which."""
    program = "silent-leg" if wrong is None else "silent-leg_wrong"
    ended = subprocess.run([os.path.join(ROOT, LINKED, program), *words], input=text, capture_output=True,
                           text=True, check=False, env={**os.environ, "WRONG_RELAY": wrong or ""})
    return ended.returncode, ended.stdout, ended.stderr


def run_net(more="", *words, mtu=1500, wrong=None):
    with tempfile.NamedTemporaryFile("w", suffix=".txt", encoding="ascii") as file:
        file.write(LINE % {"mtu": mtu} + more)
        file.flush()
        return run(file.name, "Ground", "0", "10.3.3.14", *words, wrong=wrong)


def rows(output):
    """leg, answered by, sent, seen, replies, asked, octets of both, seconds, MTU, timestamp, link."""
    return ROW.findall(output)


# ---- Datagrams, built here and not by the library

def checksum(octets):
    octets += b"\0" * (len(octets) % 2)
    total = sum(int.from_bytes(octets[i:i + 2], "big") for i in range(0, len(octets), 2))
    while total >> 16:
        total = (total & 0xffff) + (total >> 16)
    return total ^ 0xffff


def message(kind, rest):
    body = bytes([kind, 0, 0, 0]) + rest
    return body[:2] + checksum(body).to_bytes(2, "big") + body[4:]


def address(text):
    return bytes(int(octet) for octet in text.split("."))


# A timestamp is its format and its octets.
NO_STAMP = (0, b"")


def at(time):
    return 3, time.to_bytes(4, "big")


def with_p_field(p_field):
    """The P-field says that four octets follow."""
    return 2, bytes([p_field]) + b"\0\0\0\5"


def datagram(destination, source, hops, data, transport=1, intermediate=False, stamp=NO_STAMP):
    extended = "." in destination
    flags = 0x80 * intermediate | 0x40 | 0x20 * (hops is not None) | stamp[0] << 3 | extended
    control = bytes([transport << 4 | 0x0a, flags]) + b"\x10" * intermediate
    rest = control + address(destination) + address(source) + bytes([] if hops is None else [hops]) + stamp[1] + data
    return ((1 << 13 | len(rest) + 2).to_bytes(2, "big") + rest).hex()


def request(sequence, hops, destination="10.9.9.14", source="10.1.1.4", identifier=7, intermediate=True,
            stamp=NO_STAMP, data=b""):
    fixed = identifier.to_bytes(2, "big") + sequence.to_bytes(2, "big")
    return datagram(destination, source, hops, message(8, fixed + data), intermediate=intermediate, stamp=stamp)


def reply(sequence, seen, source, destination="10.1.1.4", identifier=7, stamp=NO_STAMP, mtu=1500, hops=64, data=b""):
    fixed = identifier.to_bytes(2, "big") + sequence.to_bytes(2, "big")
    fixed += bytes([seen, stamp[0]]) + stamp[1].rjust(8, b"\0") + mtu.to_bytes(4, "big")
    return datagram(destination, source, hops, message(0, fixed + b"\0\0\0\0" + data))


def lines(*datagrams):
    return "".join(datagram + "\n" for datagram in datagrams)


class Story(unittest.TestCase):
    def test_the_cut_link_is_named(self):
        status, output, complaints = run(STORY, *WAY, "scene=32")
        self.assertEqual((status, complaints), (1, ""))
        self.assertEqual([row[:6] for row in rows(output)],
                         [("1", "10.1.1.2", "1", "1", "5", "5"), ("2", "10.1.1.20", "2", "1", "4", "4"),
                          ("3", "silent", "-", "-", "0", "3")])
        self.assertEqual(rows(output)[2][11], "Buoy port 1 to South port 1")
        self.assertIn("\nSilence begins at leg 3, Buoy port 1 to South port 1. Hop counts up to 5 were sent.\n", output)
        self.assertTrue(output.endswith("   So the link itself is silent, on the way out or on the way back.\n"))

    def test_the_mended_link_is_not(self):
        for words in ("scene=33",), ():
            status, output, complaints = run(STORY, *WAY, *words)
            self.assertEqual((status, complaints), (0, ""))
            self.assertEqual([row[1] for row in rows(output)], ["10.1.1.2", "10.1.1.20", "10.2.2.8", "10.2.2.14"])
            self.assertTrue(output.endswith("\n10.2.2.14 answers over 4 legs: none is silent.\n"))
            self.assertNotIn("ilence", output)

    def test_octets_and_seconds(self):
        """Each by hand: a request of 18 + 8 octets, a reply of 13 + 26, and the rate of each link."""
        output = run(STORY, *WAY)[1]
        for row, rate in zip(rows(output), (64000, 2400, 2400, 64000)):
            self.assertEqual(row[6:9], ("26", "39", f"{(26 + 39) * 8 / rate:.4f}"))
        self.assertIn(f"There and back on each of these legs: {65 * 8 * (2 / 64000 + 2 / 2400):.4f} s in all.\n", output)

    def test_before_the_unit_had_a_route_back(self):
        status, output, _ = run(STORY, *WAY, "scene=26")
        self.assertEqual(status, 1)
        self.assertIn("Silence begins at leg 4, South port 0 to SouthUnit port 0.", output)
        self.assertIn("   By its settings SouthUnit makes a reply that does not go out: 11, no route.\n", output)
        self.assertTrue(output.endswith("   So it would be silent by a good link too.\n"))


class Net(unittest.TestCase):
    def silent(self, leg, *says, more="", words=(), mtu=1500, wrong=None):
        status, output, complaints = run_net(more, *words, mtu=mtu, wrong=wrong)
        self.assertEqual((status, complaints), (1, ""), output)
        self.assertIn(f"\nSilence begins at leg {leg}", output)
        for text in says:
            self.assertIn(text, output)
        return output

    def test_no_leg_is_silent(self):
        status, output, complaints = run_net()
        self.assertEqual((status, complaints), (0, ""))
        self.assertEqual([row[:4] for row in rows(output)],
                         [("1", "10.1.1.2", "1", "1"), ("2", "10.2.2.4", "2", "1"), ("3", "10.3.3.14", "3", "1")])
        self.assertEqual([row[10] for row in rows(output)], ["0", "65", "780"])

    def test_each_link_cut_both_ways_or_one_way(self):
        """A cut is not told apart from a held port, nor the way out from the way back."""
        ends = (("Ground 0", "Near 0"), ("Near 1", "Mid 0"), ("Mid 1", "Unit 0"))
        for leg, (one, other) in enumerate(ends, 1):
            link = f", {one} to {other}.".replace(" 0", " port 0").replace(" 1", " port 1")
            for cut in f"cut {one}", f"cut {other}", f"cut {one} out", f"cut {other} out", f"hold {one}", f"hold {other}":
                output = self.silent(leg, link, "   So the link itself is silent, on the way out or", more=cut + "\n")
                self.assertEqual(len(rows(output)), leg)
            status, output, _ = run_net(f"cut {one}\nmend {other}\n")
            self.assertEqual(status, 0, output)

    def test_a_relay_that_drops_echoes_is_alone_silent(self):
        status, output, _ = run_net("echo-drop Mid on\n")
        self.assertEqual(status, 1)
        self.assertEqual([row[1] for row in rows(output)], ["10.1.1.2", "silent", "10.3.3.14"])
        self.assertIn("Leg 2: the relay at its end is silent, and one behind it answers. So requests pass:", output)
        self.assertIn("   By its settings Mid makes no reply: echo drop is on.\n", output)
        self.assertNotIn("Silence begins", output)
        self.assertNotIn("none is silent", output)

    def test_two_in_a_row_that_drop_echoes(self):
        status, output, _ = run_net("echo-drop Near on\necho-drop Mid on\n")
        self.assertEqual([row[1] for row in rows(output)], ["silent", "silent", "10.3.3.14"])
        self.assertEqual((status, output.count("echo drop is on")), (1, 2))

    def test_the_last_one_drops_echoes(self):
        self.silent(3, "By its settings Unit makes no reply: echo drop is on.\n   So it would be silent by a good link",
                    more="echo-drop Unit on\n")

    def test_no_route_back(self):
        more = "route Unit 0 0.0.0.0 0.0.0.0 0 down\n"
        self.silent(3, "By its settings Unit makes a reply that does not go out: 11, no route.\n", more=more)

    def test_no_route_on(self):
        self.silent(3, "By its settings Mid does not send the request on: 11, no route.\n",
                    more="route Mid 0 10.3.3.0 255.255.255.0 1 down\n")

    def test_a_route_to_a_port_without_a_link(self):
        self.silent(3, "By its settings Mid sends the request on by port 2, which has no link.\n",
                    more="route Mid 0 10.3.3.0 255.255.255.0 2 up\n")

    def test_replies_that_go_back_by_another_way(self):
        back = "route Mid 1 10.1.1.0 255.255.255.0 2 up\nlink Near 2 Mid 2 8000\n"
        self.assertEqual(run_net(back)[0], 0)
        self.silent(2, "the reply goes back by port 2.\n   So this link is silent, or the way back by that port.\n",
                    more=back + "cut Mid 2\n")
        self.silent(2, "goes back by port 2.\n   That port has no link.\n   So it would be silent by a good link too.\n",
                    more=back.split("link")[0])

    def test_a_reply_that_is_too_big_on_its_way_back(self):
        """Near's reply is cut at 70 octets. The unit's has 71, and Near cannot send it on."""
        self.assertEqual(run_net("", "octets=31", mtu=70)[0], 0)
        self.silent(2, "By its settings Near does not send the reply on: 14, too big for every port.\n", mtu=70,
                    words=("octets=32",))

    def test_a_request_that_is_too_big(self):
        self.silent(3, "By its settings Mid does not send the request on: 14, too big for every port.\n",
                    more="port Mid 3 10.3.3.4 255.255.255.0 40\nroute Mid 0 10.3.3.0 255.255.255.0 3 up\n",
                    words=("octets=15",))

    def test_a_relay_that_refuses_the_whole_call(self):
        """The library does not do so here; wrong relays do. Its number is told, and nothing of the way onward."""
        back = "route Mid 1 10.1.1.0 255.255.255.0 2 up\nlink Near 2 Mid 2 8000\n"
        self.silent(2, "By its settings Near refuses the reply: 16, no such port is set up.\n   So it would", more=back,
                    wrong="deaf")
        there = "route Near 0 10.0.0.0 255.0.0.0 2 up\nlink Near 2 Mid 2 8000\n"
        self.silent(2, "By its settings Mid refuses the request: 16, no such port is set up.\n   So it would", more=there,
                    wrong="deaf")
        self.silent(1, "By its settings Near refuses the request: 17, too little room for the output.\n", wrong="cramped")
        self.assertEqual(run_net(back, wrong=""), run_net(back))

    def test_echo_drop_is_any_number_but_0(self):
        more = "echo-drop Unit on\n"
        self.silent(3, "By its settings Unit makes no reply: echo drop is on.\n", more=more, wrong="two")
        self.assertEqual(run_net(more, wrong="two"), run_net(more))

    def test_the_identifier(self):
        for words, said in ((), 1), (("identifier=0",), 0), (("identifier=65535",), 65535):
            status, output, _ = run_net("", *words)
            self.assertEqual((status, output.split("\n")[0]), (0, f"From 10.1.1.4 to 10.3.3.14, identifier {said}"))

    def test_a_ring(self):
        status, output, _ = run_net("route Mid 0 10.3.3.0 255.255.255.0 0 up\n", "hops=5")
        self.assertEqual((status, len(rows(output))), (1, 5))
        self.assertIn("\nThe way goes round a ring: the same relay answers at the ends of legs 2 and 4.\n", output)
        self.assertTrue(output.endswith("\nNo request went further than leg 5; what is behind it is not known.\n"))
        output = run_net("route Mid 0 10.3.3.0 255.255.255.0 0 up\n", "hops=60")[1]
        self.assertEqual((len(rows(output)), rows(output)[59][:6]), (60, ("60", "10.2.2.4", "60", "1", "1", "1")))

    def test_the_greatest_hop_count(self):
        status, output, _ = run_net("", "hops=2")
        self.assertEqual((status, [row[1] for row in rows(output)]), (1, ["10.1.1.2", "10.2.2.4"]))
        self.assertTrue(output.endswith("\nNo request went further than leg 2; what is behind it is not known.\n"))

    def test_rates_of_the_arguments(self):
        """Those that are said count, and the scenario's do for the others."""
        output = run_net("", "rates=100,200", "octets=5")[1]
        self.assertEqual([row[6:9] for row in rows(output)],
                         [("31", "44", f"{75 * 8 / rate:.4f}") for rate in (100, 200, 4000)])

    def test_octets_that_a_route_adds(self):
        """A checksum that Near's route asks for is on legs 2 and 3; the unit's is on its own reply."""
        output = run_net("route Near 0 10.0.0.0 255.0.0.0 1 up asks checksum\n"
                         "route Unit 0 0.0.0.0 0.0.0.0 0 up asks both\n")[1]
        self.assertEqual([row[6:9] for row in rows(output)],
                         [(str(one), str(other), f"{(one + other) * 8 / rate:.4f}")
                          for one, other, rate in ((26, 39, 8000), (28, 39, 800), (28, 41, 4000))])

    def test_the_story_is_passed_over(self):
        """Nothing of it is sent or expected; but a word that there is not is found."""
        story = "scene 1. x\nsay y\nsend Ground 0 to 10.3.3.14 from 10.1.1.4 data \"z\"\nrun\nexpect Unit nothing\n"
        self.assertEqual(run_net(story), run_net())
        status, _, complaints = run_net(story + "sned\n")
        self.assertEqual(status, 2)
        self.assertIn(f", line {LINE.count(chr(10)) + 6}: expected node, port, link", complaints)

    def test_the_net_as_it_stands_after_a_scene(self):
        story = "scene 1. a\ncut Near 1\nscene 10. b\nmend Near 1\nscene 2. c\ncut Mid 1\n"
        for scene, leg in ("scene=1", 2), ("scene=10", 0), ("scene=2", 3), ("scene=2. c", 3):
            output = run_net(story, scene)[1]
            self.assertEqual(re.findall(r"Silence begins at leg (\d)", output), [str(leg)] if leg else [], scene)

    def test_bad_arguments(self):
        for words, says in ((("Nobody", "0", "10.3.3.14"), "the arguments: expected the name of a node, found 'Nobody'"),
                            (("Near", "8", "10.3.3.14"), "the arguments: expected a port, 0 to 7, found '8'"),
                            (("Near", "3", "10.3.3.14"), "the arguments: expected a port with a link, found '3'"),
                            (("Near", "1", "14"), "the arguments: expected an address of four octets, found '14'"),
                            (("Near", "1", "10.9.9.31"), "since no other answers, found '10.9.9.31'"),
                            (("Near", "1", "10.2.2.255"), "since no other answers, found '10.2.2.255'"),
                            (("Near",), "say a node, a port and an address too: "),
                            (("Near", "1", "10.3.3.14", "x"), "not understood: x"),
                            (("Near", "1", "10.3.3.14", "hops=0"), "not understood: hops=0"),
                            (("Near", "1", "10.3.3.14", "hops=256"), "not understood: hops=256"),
                            (("Near", "1", "10.3.3.14", "octets=401"), "not understood: octets=401"),
                            (("Near", "1", "10.3.3.14", "identifier=65536"), "not understood: identifier=65536"),
                            (("Near", "1", "10.3.3.14", "identifier="), "not understood: identifier="),
                            (("Near", "1", "10.3.3.14", "rates=1,"), "not understood: rates=1,"),
                            (("Near", "1", "10.3.3.14", "rates=0"), "not understood: rates=0"),
                            (("Near", "1", "10.3.3.14", "rates=" + "1," * 255 + "1"), "not understood: rates="),
                            (("Near", "1", "10.3.3.14", "scene="), "not understood: scene="),
                            (("Near", "1", "10.3.3.14", "scene=3"), ": there is no such scene")):
            with tempfile.NamedTemporaryFile("w", suffix=".txt", encoding="ascii") as file:
                file.write(LINE % {"mtu": 1500} + "scene 1. x\n")
                file.flush()
                status, output, complaints = run(file.name, *words)
            self.assertEqual((status, output), (2, ""), words)
            self.assertIn(says, complaints)
            self.assertTrue(complaints.startswith("silent-leg: "))
        self.assertEqual(run("none.txt", *WAY), (2, "", "silent-leg: none.txt: No such file or directory\n"))


class Captured(unittest.TestCase):
    GOOD = (request(1, 1, stamp=at(5)), reply(1, 1, "10.1.1.2", stamp=at(5)), request(2, 2), reply(2, 2, "10.1.1.2"),
            reply(2, 1, "10.2.2.4", mtu=200), request(3, 3), reply(3, 1, "10.9.9.14"), reply(3, 2, "10.2.2.4"),
            reply(3, 3, "10.1.1.2"))
    SILENT = GOOD[:6] + GOOD[7:] + (request(4, 4), reply(4, 4, "10.1.1.2"), reply(4, 3, "10.2.2.4"))

    def look(self, status, *datagrams, words=()):
        ended, output, complaints = run(*words, text=lines(*datagrams))
        self.assertEqual((ended, complaints), (status, ""), output)
        return output

    def test_all_answer(self):
        output = self.look(0, *self.GOOD, words=("rates=2400,800",))
        self.assertEqual([row[:11] for row in rows(output)],
                         [("1", "10.1.1.2", "1", "1", "3", "3", "26", "39", "0.2167", "1500", "5"),
                          ("2", "10.2.2.4", "2", "1", "2", "2", "22", "39", "0.6100", "200", "-"),
                          ("3", "10.9.9.14", "3", "1", "1", "1", "22", "39", "-", "1500", "-")])
        self.assertTrue(output.endswith("\n10.9.9.14 answers over 3 legs: none is silent.\n"))

    def test_the_order_does_not_matter(self):
        """Where a request was seen, its replies may stand before it."""
        self.assertEqual(sorted(row[:2] for row in rows(self.look(0, *reversed(self.GOOD)))),
                         sorted(row[:2] for row in rows(self.look(0, *self.GOOD))))

    def test_silence(self):
        output = self.look(1, *self.SILENT)
        self.assertEqual([row[1] for row in rows(output)], ["10.1.1.2", "10.2.2.4", "silent"])
        self.assertIn("\nSilence begins at leg 3. Hop counts up to 4 were sent.\n   It can mean: ", output)
        self.assertTrue(output.endswith("\n   If one relay alone dropped them, any behind it would answer; none does.\n"))

    def test_one_relay_alone_is_silent(self):
        output = self.look(1, *(line for line in self.GOOD if "0a020204" not in line))
        self.assertEqual([row[1] for row in rows(output)], ["10.1.1.2", "silent", "10.9.9.14"])
        self.assertIn("\nLeg 2: the relay at its end is silent, and one behind it answers.", output)

    def test_all_is_silent(self):
        output = self.look(1, request(1, 1), request(2, 2))
        self.assertEqual([row[1] for row in rows(output)], ["silent"])
        self.assertIn("\nSilence begins at leg 1. Hop counts up to 2 were sent.\n", output)

    def test_hop_count_0_is_answered_by_the_first(self):
        output = self.look(0, request(1, 0, destination="10.1.1.2"), reply(1, 0, "10.1.1.2"))
        self.assertEqual(rows(output)[0][:6], ("1", "10.1.1.2", "0", "0", "1", "1"))

    def test_without_intermediate_delivery(self):
        asked = request(1, 64, intermediate=False)
        output = self.look(0, asked, reply(1, 62, "10.9.9.14"))
        self.assertEqual([row[1] for row in rows(output)], ["not asked", "not asked", "10.9.9.14"])
        output = self.look(1, asked)
        self.assertIn("Requests without intermediate delivery that have no answer: 1.", output)
        self.assertEqual(rows(output), [])

    def test_one_octet_addresses(self):
        """The replies have four octets where the request was written so on its way."""
        asked = request(1, 8, destination="14", source="4")
        for near, far in (("10.1.1.2", "10.1.1.14"), ("2", "14")):
            to = "10.1.1.4" if "." in near else "4"
            output = self.look(0, asked, reply(1, 8, near, destination=to), reply(1, 7, far, destination=to))
            self.assertEqual([row[1] for row in rows(output)], [near, far])
        self.look(1, asked, reply(1, 8, "10.1.1.2"), reply(1, 7, "10.2.2.14"))
        output = self.look(1, asked, reply(1, 8, "10.1.1.2", destination="10.1.1.5"))
        self.assertIn(", 1 replies to\n", output)

    def test_two_ways(self):
        """One identifier for two senders, another for a third way; each has its table."""
        output = self.look(1, request(1, 1), request(1, 1, source="10.4.4.4"), request(1, 1, identifier=8),
                           reply(1, 1, "10.9.9.14", destination="10.4.4.4"), reply(1, 1, "10.9.9.14", identifier=8))
        self.assertEqual(re.findall(r"^From (\S+) .* identifier (\d)$", output, re.M),
                         [("10.1.1.4", "7"), ("10.4.4.4", "7"), ("10.1.1.4", "8")])
        self.assertEqual([row[1] for row in rows(output)], ["silent", "10.9.9.14", "10.9.9.14"])

    def run_of(self, begins, answered):
        """Two requests, one after the other, and what answers them: a relay, then the destination."""
        asked = [request(hops, hops, stamp=at(begins + 8 * hops)) for hops in (1, 2)]
        return asked + answered * [reply(1, 1, "10.1.1.2", stamp=at(begins + 8)),
                                   reply(2, 2, "10.1.1.2", stamp=at(begins + 16)),
                                   reply(2, 1, "10.9.9.14", stamp=at(begins + 16))]

    def test_a_later_run_speaks_for_itself(self):
        """The same identifier and sequence numbers again, at a later time."""
        for first, second in (True, False), (False, True), (True, True), (False, False):
            output = self.look(int(not (first and second)), *self.run_of(1000, first), *self.run_of(900000, second))
            tables = output.split("From ")[1:]
            self.assertEqual([table.split("\n")[0] for table in tables],
                             ["10.1.1.4 to 10.9.9.14, identifier 7", "10.1.1.4 to 10.9.9.14, identifier 7, run 2"])
            for table, answered in zip(tables, (first, second)):
                self.assertEqual("none is silent" in table, answered)
                self.assertEqual("Silence begins at leg 1." in table, not answered)
            self.assertNotIn("Passed over", output)

    def test_a_longer_run_behind_a_shorter_one(self):
        more = [request(hops, hops, stamp=at(900000 + 8 * hops)) for hops in (3, 4)]
        output = self.look(1, *self.run_of(1000, True), *self.run_of(900000, False), *more)
        self.assertIn("run 2\n", output)
        self.assertIn("Silence begins at leg 1. Hop counts up to 4 were sent.\n", output)

    def test_replies_that_are_missing(self):
        """One identifier, and sequence numbers that go on: no leg is silent for good, but all is not clear."""
        for intermediate in True, False:
            asked = [request(number, 1, intermediate=intermediate) for number in (1, 2)]
            output = self.look(1, *asked, reply(1, 1, "10.9.9.14"))
            self.assertTrue(output.endswith("\n10.9.9.14 answers over 1 leg, but replies to some requests are missing.\n"))
            self.look(0, *asked, reply(1, 1, "10.9.9.14"), reply(2, 1, "10.9.9.14"))

    def test_what_is_captured_twice(self):
        """Hop count and a checksum change on the way, and nothing else does."""
        asked = request(1, 2, stamp=at(5), data=b"x")
        for other, repeats in ((request(1, 1, stamp=at(5), data=b"x"), True), (request(1, 2, stamp=at(6), data=b"x"), False),
                               (request(1, 2, stamp=at(5), data=b"y"), False), (request(1, 2, stamp=at(5)), False),
                               (request(1, 2, stamp=(1, b"\0\0\5"), data=b"x"), False),
                               (request(1, 2, stamp=at(5), data=b"x", intermediate=False), False)):
            output = self.look(1, asked, other)
            self.assertEqual((" 1 seen before" in output, ", run 2\n" in output), (repeats, not repeats), other)
        one, other = (request(1, 2, stamp=with_p_field(p_field)) for p_field in (0x1c, 0x2c))
        self.assertIn(", run 2\n", self.look(1, one, other))
        answer = reply(1, 2, "10.1.1.2", stamp=at(5), data=b"x")
        for other, repeats in ((reply(1, 2, "10.1.1.2", stamp=at(5), data=b"x", hops=61), 1),
                               (reply(1, 2, "10.1.1.2", stamp=at(5), data=b"x", mtu=40), 0),
                               (reply(1, 2, "10.1.1.2", stamp=at(5)), 0)):
            self.assertEqual(" 1 seen before" in self.look(1, asked, answer, other), bool(repeats), other)

    def test_a_reply_brings_back_the_timestamp(self):
        """Each format, one with a P-field in each of its lengths; another time or format is no answer."""
        stamps = [NO_STAMP, (1, b"\1\2\3"), at(5), (2, b"\x9f" + b"\xff" * 7)]
        stamps += [(2, bytes([0x10 | basic << 2 | fine]) + b"\7" * (basic + 1 + fine)) for basic in range(4)
                   for fine in range(4)]
        for stamp in stamps:
            self.look(0, request(1, 1, stamp=stamp), reply(1, 1, "10.9.9.14", stamp=stamp))
        for stamp in at(6), NO_STAMP, (1, b"\0\0\5"):
            output = self.look(1, request(1, 1, stamp=at(5)), reply(1, 1, "10.9.9.14", stamp=stamp))
            self.assertIn(", 1 replies to\nno request seen.\n", output)
        output = self.look(1, request(1, 1, stamp=with_p_field(0x1c)), reply(1, 1, "10.9.9.14", stamp=with_p_field(0x2c)))
        self.assertIn(", 1 replies to\nno request seen.\n", output)

    def test_a_reply_brings_back_the_data(self):
        """They may be cut."""
        for data, status in ((b"abc", 0), (b"ab", 0), (b"", 0), (b"abd", 1), (b"abcd", 1)):
            self.look(status, request(1, 1, data=b"abc"), reply(1, 1, "10.9.9.14", data=data))

    def test_two_destinations(self):
        """The same numbers to both. What the relay before them says may answer either, and that is said."""
        both = [request(hops, hops, destination=far) for far in ("10.2.2.14", "10.3.3.14") for hops in (1, 2)]
        output = self.look(1, *both, reply(1, 1, "10.1.1.2"), reply(2, 2, "10.1.1.2"), reply(2, 1, "10.3.3.14"))
        one, other = output.split("From ")[1:]
        self.assertEqual([row[:6] for row in rows(one)],
                         [("1", "unclear", "-", "-", "0", "2"), ("2", "silent", "-", "-", "0", "1")])
        self.assertEqual([row[:6] for row in rows(other)],
                         [("1", "unclear", "-", "-", "0", "2"), ("2", "10.3.3.14", "2", "1", "1", "1")])
        for table in one, other:
            self.assertIn("Replies that fit a request of another way or run just as well: 2. Which one\n", table)
            self.assertNotIn("ilence begins", table)
            self.assertNotIn("none is silent", table)
        self.assertNotIn("Passed over", output)

    def test_a_destination_answers_for_itself(self):
        """Each of two is credited with its own reply, whichever was asked first."""
        far = ("10.2.2.14", "10.3.3.14")
        for answers in far:
            output = self.look(1, *(request(1, 1, destination=one) for one in far), reply(1, 1, answers))
            self.assertEqual([row[1] for row in rows(output)], [one if one == answers else "silent" for one in far])
        self.look(0, *(request(1, 1, destination=one) for one in far), *(reply(1, 1, one) for one in far))

    def test_the_timestamp_tells_two_destinations_apart(self):
        asked = request(2, 2, destination="10.2.2.14", stamp=at(5)), request(2, 2, destination="10.3.3.14", stamp=at(6))
        for stamp, answered in (5, ["10.1.1.2", "silent", "silent"]), (6, ["silent", "10.1.1.2", "silent"]):
            output = self.look(1, *asked, reply(2, 2, "10.1.1.2", stamp=at(stamp)))
            self.assertEqual([row[1] for row in rows(output)], answered)

    def test_a_request_that_does_not_fit_hides_no_other(self):
        """The first was sent with a hop count under the one that was seen."""
        output = self.look(1, request(1, 1, destination="10.2.2.14"), request(1, 3), reply(1, 3, "10.1.1.2"),
                           reply(1, 2, "10.9.9.14"))
        self.assertEqual([row[:4] for row in rows(output)],
                         [("1", "silent", "-", "-"), ("1", "10.1.1.2", "3", "3"), ("2", "10.9.9.14", "3", "2")])

    def test_what_is_passed_over(self):
        """Other traffic, repeats, and replies that belong to no request or saw more hops than were sent."""
        others = (datagram("10.9.9.14", "10.1.1.4", 8, b"dose", transport=5),
                  datagram("10.9.9.14", "10.1.1.4", 8, message(11, b"\0" * 8)), request(9, None))
        strays = (reply(5, 1, "10.1.1.2"), reply(2, 3, "10.1.1.2"))
        output = self.look(0, *others, *self.GOOD, self.GOOD[0], self.GOOD[1], *strays)
        self.assertEqual(rows(output), rows(self.look(0, *self.GOOD)))
        self.assertTrue(output.endswith("\nPassed over: 3 that are no echo messages, 2 seen before, 2 replies to\n"
                                        "no request seen.\n"))

    def test_nothing_there(self):
        for text in "", "\n# no datagram\n \n":
            self.assertEqual(run(text=text), (1, "There is no echo request among them.\n", ""))

    def test_octets_beyond_the_length_are_ignored(self):
        text = "".join(f"  {line.upper()}0000\t\r\n" for line in self.GOOD)
        self.assertEqual(run(text=text), run(text=lines(*self.GOOD)))

    def test_a_file(self):
        with tempfile.NamedTemporaryFile("w", suffix=".hex", encoding="ascii") as file:
            file.write("# captured at the ground\n" + lines(*self.GOOD))
            file.flush()
            self.assertEqual(run(file.name), run(text=lines(*self.GOOD)))
        self.assertEqual(run("none.hex"), (2, "", "silent-leg: none.hex: No such file or directory\n"))

    def test_bad_lines(self):
        good = self.GOOD[1]
        damaged = good[:-1] + "1"
        pairs = "expected octets as pairs of hexadecimal digits"
        for line, says in ((good[:-1], pairs), ("0x" + good, pairs), ("dose biocide", pairs), (good + " " + good, pairs),
                           (good[:10] + "g" + good[11:], pairs), ("00" * 8192, "more than 8191 octets"),
                           ("00" * 9000, "more than 8191 octets"),
                           (good[:-2], "the library does not read it: 3, wrong length"),
                           ("40" + good[2:], "the library does not read it: 2, wrong version"),
                           ("2000", "the library does not read it: 1, too short"),
                           (damaged, "the library does not read it: 5, wrong checksum"),
                           (datagram("10.1.1.4", "10.1.1.2", 8, message(0, b"\0" * 8)),
                            "the library does not read it: 1, too short")):
            status, output, complaints = run(text=lines(self.GOOD[0], "", line))
            self.assertEqual((status, output, complaints),
                             (2, "", f"silent-leg: standard input, line 3: {says}\n"), line[:80])

    def test_settings_of_a_net(self):
        for word in "hops=3", "octets=3", "scene=3", "identifier=3":
            says = f"silent-leg: goes with a scenario alone: {word}\nsilent-leg: try --help\n"
            self.assertEqual(run(word), (2, "", says))


if __name__ == "__main__":
    unittest.main()
