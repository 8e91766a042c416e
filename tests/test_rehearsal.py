#!/usr/bin/env python3
"""build/rehearsal: the customer's story goes as it should; a bad line, a failed
expectation, relays that lose, swap or repeat entries, relays whose headers name another
unit, relays that do not know a flooded order again and relays that answer echoes wrongly
are each found out. By batches the story is the same, octet for octet.
"""
import os
import re
import subprocess
import tempfile
import unittest

from built import LINKED

ROOT = os.path.dirname(os.path.dirname(os.path.abspath(__file__)))
STORY = os.path.join(ROOT, "scenarios/biocide.txt")

# Two hosts with a router between them.
SMALL = """\
node Left host
port Left 0 10.1.1.4 255.255.255.0 1500
node Middle router
port Middle 0 10.1.1.2 255.255.255.0 1500
port Middle 1 10.2.2.2 255.255.255.0 30
route Middle 0 10.2.2.0 255.255.255.0 1 up
node Right host
port Right 0 10.2.2.14 255.255.255.0 1500
link Left 0 Middle 0 64000
link Middle 1 Right 0 2400
"""


# The same with wider ports and ways back.
ECHO = SMALL.replace(" 30\n", " 1500\n") + """\
route Middle 1 10.1.1.4 255.255.255.255 0 up
route Right 0 0.0.0.0 0.0.0.0 0 up
"""


# A low order behind two that wait; then one that is higher, one like it and one lower.
WAITS = SMALL + """\
hold Middle 1
send Left 0 to 10.2.2.14 from 10.1.1.4 precedence 1 times 2 data "reading"
send Left 0 to 10.2.2.14 from 10.1.1.4 data "log"
send Left 0 to 10.2.2.14 from 10.1.1.4 precedence 1 data "dose"
run
foretell Middle 1 "dose"
send Left 0 to 10.2.2.14 from 10.1.1.4 precedence 2 data "stop"
send Left 0 to 10.2.2.14 from 10.1.1.4 precedence 1 data "later"
send Left 0 to 10.2.2.14 from 10.1.1.4 data "last"
run
release Middle 1
run
expect Right delivered "dose"
"""


# Middle and End, by the wire between them: a ring for 10.7.7 where End's route leads back.
RING = SMALL + """\
node End router
port End 0 10.1.1.6 255.255.255.0 1500
port Middle 2 10.1.1.8 255.255.255.0 1500
link End 0 Middle 2 9600
route End 0 0.0.0.0 0.0.0.0 0 up%s
route Middle 1 10.7.7.0 255.255.255.0 2 up
quiet
send Left 0 to 10.7.7.14 from 10.1.1.4 %sdata "x"
run
"""


# Left, and three routers in a ring, each with a leg to each other.
FLOOD = """\
node Left host
port Left 0 10.1.1.4 255.255.255.0 1500
node One router
port One 0 10.1.1.2 255.255.255.0 1500
port One 1 10.2.2.2 255.255.255.0 1500
port One 2 10.3.3.2 255.255.255.0 1500
node Two router
port Two 1 10.2.2.4 255.255.255.0 1500
port Two 2 10.4.4.2 255.255.255.0 1500
node Three router
port Three 1 10.3.3.4 255.255.255.0 1500
port Three 2 10.4.4.4 255.255.255.0 1500
link Left 0 One 0 9600
link One 1 Two 1 9600
link One 2 Three 1 9600
link Two 2 Three 2 9600
"""
ORDER = "send Left 0 to 10.255.255.255 from 10.1.1.4 %sflood stamp 7 data \"close\"\nrun\n"


def star(*missions):
    """A router and four hosts around it. What these send at once comes to it at one moment, that of Leaf1 first."""
    return "node Hub router\n" + "".join(f"""\
node Leaf{i} host
port Leaf{i} 0 10.{i}.1.4 255.255.255.0 1500
port Hub {i} 10.{i}.1.2 255.255.255.0 1500 mission {mission}
link Leaf{i} 0 Hub {i} 9600
route Hub {i} 10.{i}.1.0 255.255.255.0 {i} up mission {mission}
""" for i, mission in enumerate(missions or (0, 0, 0, 0), 1))


def leaf_sends(leaf, destination, fields="data \"dose\""):
    return f"send Leaf{leaf} 0 to {destination} from 10.{leaf}.1.4 {fields}\n"


def scenes(first, last):
    """These scenes of the story, without what other nodes expect."""
    with open(STORY, encoding="ascii") as file:
        parts = re.split(r"^(?=scene )", file.read(), flags=re.M)
    text = "".join(parts[first:last + 1])
    return re.sub(r"^expect (?:ControlRoom|South) .*\n", "", text, flags=re.M)


def fly(*arguments, program="rehearsal", **environment):
    """Its status, output and complaints."""
    words = [os.path.join(ROOT, LINKED, program), *arguments]
    ended = subprocess.run(words, capture_output=True, text=True, check=False,
                           env={**os.environ, **environment})
    return ended.returncode, ended.stdout, ended.stderr


def fly_text(text, program="rehearsal", **environment):
    with tempfile.NamedTemporaryFile("w", suffix=".txt", encoding="ascii") as file:
        file.write(text)
        file.flush()
        return fly(file.name, program=program, **environment)


class Story(unittest.TestCase):
    @classmethod
    def setUpClass(cls):
        cls.status, cls.output, cls.complaints = fly(STORY)
        parts = cls.output.split("\n== ")
        cls.scenes = {part.split(".")[0]: part for part in parts}

    def has(self, scene, *lines):
        """The lines stand in the scene, in this order."""
        rest = self.scenes[scene]
        for line in lines:
            self.assertIn(line, rest)
            rest = rest.split(line, 1)[1]

    def lacks(self, scene, text):
        self.assertNotIn(text, self.scenes[scene])

    def test_it_ends_well(self):
        self.assertEqual((self.status, self.complaints), (0, ""))
        self.assertNotIn("NOT AS", self.output)
        self.assertRegex(self.output, r"\n(\d+) of \1 copies name what the datagram named that came\.\n")
        self.assertRegex(self.output, r"\n(\d+) of \1 entries went out at the take foretold\.\n")
        self.assertRegex(self.output, r"\n(\d+) of \1 expectations held; the ledger closes on every port\.\n$")

    def test_one_octet_order_reaches_the_unit_that_it_named(self):
        order = "\"dose biocide 20 litres\""
        self.has("1", "header 6 + data 22 = 28 octets", f"North port 2 to Buoy port 0: {order} from 4 to 14\n",
                 "28 octets at 2400 bit/s: 93.3 ms", "Buoy receives", "onward: sent on (1); taken by port 1\n",
                 "port 1: header rewritten, 13 octets, 7 more than came: 23.3 ms more at 2400 bit/s\n",
                 f"Buoy port 1 to South port 1: {order} from 10.1.1.4 to 10.1.1.14\n",
                 "35 octets at 2400 bit/s: 116.7 ms on the wire; hop count 64;",
                 f"South port 4 to NorthUnit port 1: {order} from 10.1.1.4 to 10.1.1.14\n", "hop count 63;",
                 f"NorthUnit receives {order} by port 1\n", "here: DELIVERED (1)")
        self.assertEqual(self.scenes["1"].count("DELIVERED"), 1)
        self.lacks("1", "SouthUnit receives")

    def test_four_octet_order_arrives(self):
        self.has("2", "header 12 + data 22 = 34 octets", "34 octets at 2400 bit/s: 113.3 ms",
                 "port 1: header rewritten, 13 octets, 1 more than came: 3.3 ms more at 2400 bit/s\n",
                 "SouthUnit receives \"dose biocide 20 litres\"", "here: DELIVERED (1)")
        self.lacks("2", "NorthUnit receives")

    def test_within_a_domain_one_octet_does(self):
        self.has("3", "port 1: header kept, 6 octets\n", "NorthUnit receives", "here: DELIVERED (1)")
        self.lacks("3", "Buoy receives")

    def test_an_urgent_order_overtakes(self):
        self.has("5", "North receives \"reading 2", "North receives \"reading 3", "North receives \"STOP",
                 "SouthUnit receives \"reading 1", "SouthUnit receives \"STOP", "SouthUnit receives \"reading 2",
                 "SouthUnit receives \"reading 3")

    def test_a_full_queue(self):
        self.has("6", "32 sent, 32 arrivals, 0 of them dropped", "REFUSED (15), every queue is full; no port took it; "
                 "DROPPED, queue full, by port 2", "npOutDiscards 1 (+1)", "31 still wait", "taken by port 2")

    def test_a_group_with_one_port_full(self):
        self.has("7", "taken by port 1; DROPPED, queue full, by port 2", "NorthUnit receives \"all units: flush\"",
                 "taken by port 1,2", "SouthUnit receives \"all units: rinse\"")
        self.lacks("7", "SouthUnit receives \"all units: flush\"")

    def test_a_path(self):
        self.has("8", "by path 10.1.1.40", "header 8 + data 21", "SouthUnit receives", "here: DELIVERED (1)")

    def test_one_octet_path_stays_in_its_domain(self):
        self.has("8", "by path 40 by port 0\n", "header 4 + data 21 = 25 octets", "port 2: header kept, 4 octets\n",
                 "Buoy receives", "onward: REFUSED (13), a one-octet path would leave its domain; no port took it\n",
                 "left-domain 1 (+1)")
        self.assertEqual(self.output.count("REFUSED (13)"), 1)

    def test_hops(self):
        self.has("9", "hop count 4", "hop count 3", "hop count 2", "hop count 1", "REFUSED (10), hop count used up")

    def test_intermediate_delivery(self):
        for relay in ("North", "Buoy", "South"):
            self.has("10", relay + " receives", "here: DELIVERED (1)", "onward: sent on (1)")

    def test_unknown_transport(self):
        self.has("11", "North receives", "here: REFUSED (26), unknown transport number", "onward: sent on (1)",
                 "SouthUnit receives", "here: REFUSED (26)", "onward: not asked (0)")

    def test_a_route_that_is_down_hides_none(self):
        self.has("12", "North receives \"East: dose", "onward: sent on (1); taken by port 2",
                 "East receives \"East: dose biocide 5 litres\" by port 0", "here: DELIVERED (1)",
                 "North receives \"West: dose", "onward: sent on (1); taken by port 2",
                 "West receives \"West: dose biocide 6 litres\" by port 0", "here: DELIVERED (1)")
        self.lacks("12", "REFUSED")

    def test_no_route_that_is_up(self):
        self.has("13", "North receives", "onward: REFUSED (11), no route; no port took it", "npOutNoRoutes 1 (+1)")
        self.lacks("13", "DELIVERED")
        self.assertNotIn("(12)", self.output)

    def test_the_longest_that_is_up(self):
        self.has("14", "North receives \"East: dose", "taken by port 3", "East receives", "by port 1",
                 "North receives \"West: dose", "taken by port 2", "West receives", "by port 0")

    def test_a_low_order_waits_as_long_as_foretold(self):
        foretold = "foretold: \"dose biocide 3 litres\" goes out at take "
        since = " of port 1 since the placing of \"dose biocide 3 litres\""
        self.has("15", foretold + "3 + 0 + 1 = 4 of port 1; made since its placing: 0",
                 "70 octets go before it: 0.2333 s at 2400 bit/s", "Satellite port 2: a take is REFUSED (18)",
                 "Satellite port 5: a take is REFUSED (16)", "REFUSED (14)", "\"close valve 2\"", "take 1" + since,
                 foretold + "3 + 1 + 1 = 5 of port 1; made since its placing: 1", "receives \"report the salt\"",
                 "receives \"report the wind\"", "Satellite port 2 to Ship", "take 2" + since, "take 3" + since,
                 foretold + "3 + 2 + 1 = 6 of port 1; made since its placing: 3", "take 4" + since, "The pass ends",
                 foretold + "3 + 3 + 1 = 7 of port 1; made since its placing: 4",
                 "126 octets go before it: 0.4200 s at 2400 bit/s", "take 5" + since, "take 6" + since,
                 "Satellite port 1 to Station port 0: \"dose biocide 3 litres\"", "take 7" + since,
                 "as foretold (take 7): Satellite port 1 hands out \"dose biocide 3 litres\" at take 7")
        self.assertEqual(self.scenes["15"].count(foretold), 4)
        self.assertEqual(self.scenes["15"].count(since), 7)

    def test_the_seconds_are_those_on_the_wire(self):
        scene = self.scenes["15"].split("made since its placing: 0")[1]
        before = scene.split("Satellite port 1 to Station port 0: \"dose")[0]
        octets = re.findall(r"Satellite port 1 to .*\n +(\d+) octets at 2400 bit/s", before)
        self.assertEqual((len(octets), sum(map(int, octets))), (6, 126))

    def test_a_storm_of_the_other_mission(self):
        """The two tables, left and right of the bar, line by line."""
        self.has("16", "46 sent, 46 arrivals, 8 of them dropped", "Stormy counter npOutDiscards 8 mission 1",
                 "Stormy counter npOutDiscards 0", "Stormy, mission 0", "waiting on port 1: 3 ",
                 "as expected: mission 0 is told the same by both", "Stormy receives \"all units: STORM\"",
                 "REFUSED (11)", "Stormy receives \"Buoy: STORM\"", "here: not delivered (0)", "REFUSED (11)",
                 "port 1: a take gives slot 3, precedence 9 ", "as expected: mission 0 is told the same by both")
        rows = [line[3:].split(" | ") for line in self.scenes["16"].splitlines() if " | " in line]
        rows = [(one.rstrip(), other) for one, other in rows if one.rstrip() != "Calm"]
        self.assertEqual(len(rows), 7 + 14)
        for one, other in rows:
            self.assertEqual(one, other)

    def test_two_headers_of_one_datagram(self):
        self.has("17", "South receives", "taken by port 1,2\n", "port 1: header kept, 6 octets\n",
                 "port 2: header rewritten, 12 octets, 6 more than came",
                 "South port 1 to Buoy port 1: \"tank 2 is full\" from 14 to 31\n",
                 "South port 2 to East port 0: \"tank 2 is full\" from 10.2.2.14 to 10.2.2.31\n",
                 "East receives", "here: DELIVERED (1)", "Buoy receives", "port 0: header rewritten, 12 octets",
                 "ControlRoom receives", "here: DELIVERED (1)")
        self.lacks("17", "; hop count")

    def test_what_a_header_costs(self):
        """Each millisecond by the octets, and not as the program has it."""
        rows = re.findall(r"port 1: header (\w+), (\d+) octets"
                          r"(?:, (\d+) more than came: ([\d.]+) ms more at 2400 bit/s)?\n", self.scenes["18"])
        self.assertEqual([(form, int(octets)) for form, octets, _, _ in rows],
                         [("rewritten", 12), ("rewritten", 14), ("rewritten", 13), ("rewritten", 15), ("kept", 15)])
        for _, octets, more, milliseconds in rows[:4]:
            self.assertEqual(int(more), int(octets) - 6)
            self.assertEqual(milliseconds, f"{int(more) * 8 / 2.4:.1f}")
        self.assertEqual(rows[4][2:], ("", ""))

    def test_a_ring_without_a_hop_count(self):
        self.has("19", "Buoy receives", "port 1: header rewritten, 12 octets", "South receives", "taken by port 1\n",
                 "Buoy receives", "taken by port 1\n", "South receives", "0 sent, 200 arrivals", "Buoy receives",
                 "onward: REFUSED (11), no route; no port took it\n")
        self.lacks("19", "; hop count")
        self.lacks("19", "DELIVERED")

    def test_a_route_that_asks_for_a_hop_count(self):
        self.has("20", "port 1: header rewritten, 13 octets, 7 more than came", "hop count 64", "hop count 63",
                 "hop count 62", "0 sent, 61 arrivals", "onward: REFUSED (10), hop count used up; no port took it\n")
        self.lacks("20", "DELIVERED")
        first = re.search(r"\n +([\d.]+) s  Buoy port 1 to South", self.scenes["20"])[1]
        last = re.findall(r"\n +([\d.]+) s  Buoy receives", self.scenes["20"])[-1]
        self.assertAlmostEqual(float(last) - float(first), 64 * 35 * 8 / 2400, places=3)

    def sent_once(self, scene, *wells):
        for well in wells:
            answers = re.findall(rf" {well} receives .*\n.*\n +onward: (.*?) \(", self.scenes[scene])
            self.assertEqual((answers[0], answers.count("sent on")), ("sent on", 1), well)

    def test_a_flood_ends_at_the_one_that_it_is_for(self):
        self.has("21", ", hop count 16, flooded, stamp 1\n", "Well1 receives \"Well3: close valve 1\"",
                 "taken by port 0,1\n", "Well3 receives", "here: DELIVERED (1)", "onward: not asked (0)",
                 "Well3 receives", "here: DELIVERED (1)", "onward: not asked (0)",
                 "REFUSED (28), flooded without a source or a timestamp; no port took it\n",
                 "npInReceives 2 (+1), flood-unmarked 1 (+1)")
        self.sent_once("21", "Well1", "Well2", "Well4", "Well5")

    def test_a_flood_round_a_ring(self):
        self.has("22", "Well3 receives", "sent on (1)", "Well4 receives", "sent on (1)", "Well4 receives",
                 "not asked (0)", "Well3 receives", "not asked (0)", "8 as the relays sent it on,\n",
                 "41 by the same links without the pairs, bounded by hop count 16\n", "from 4 to 255 by port 0\n",
                 "Well1 receives", "onward: not asked (0)", "Well1 receives", "onward: not asked (0)")
        self.sent_once("22", "Well1", "Well2", "Well3", "Well4", "Well5")

    def test_a_flood_on_a_full_mesh(self):
        self.has("23", "18 as the relays sent it on,\n",
                 "4953 by the same links without the pairs, bounded by hop count 8\n")
        self.assertEqual(len(re.findall(r" port \d to \w+ port \d: \"all: open valve 1\"", self.scenes["23"])), 18)
        self.sent_once("23", "Well1", "Well2", "Well3", "Well4", "Well5")

    def test_late_copies_and_the_lifetime(self):
        self.has("24", "(2 s pass)\n", "Well1 sweeps at second ", "; pairs held: 4 before, 0 after\n",
                 "Well2 receives \"all: flush\" by port 1\n", "onward: sent on (1); taken by port 0,2,3\n",
                 "(2 s pass)\n", "; pairs held: 1 before, 1 after\n")

    def test_64_pairs(self):
        self.has("25", "64 sent, ", "as expected: Well1 pairs 64\n", "REFUSED (30), all places for pairs are held; no "
                 "port took it\n", "pairs-held 1 (+1)", "onward: not asked (0)", "pairs held: 64 before, 64 after\n",
                 "REFUSED (30)", "pairs held: 64 before, 0 after\n")

    def test_a_second_that_is_too_late(self):
        self.has("26", "Stormy sweeps at second 4294967295, mission 1; pairs held: 0 before, 0 after\n",
                 "Stormy receives \"STORM\"", "REFUSED (29), a second before the last one accepted; no port took it\n",
                 "counters: none moved\n", ", mission 1: REFUSED (29), a second before the last one accepted; pairs "
                 "held: 0 before, 0 after\n", "pairs held: 1 ", "| pairs held: 1\n",
                 "as expected: mission 0 is told the same by both", "Stormy receives \"STORM\"", "taken by port 3\n")

    def test_an_echo_is_answered(self):
        self.has("27", "ControlRoom sends echo request 7.1 from 10.1.1.4 to 10.2.2.14 by port 0\n",
                 "header 17 + data 24 = 41 octets\n", "North receives echo request 7.1 by port 0\n",
                 "here: not delivered (0)", "SouthUnit receives echo request 7.1", "here: DELIVERED (1)",
                 "answers the echo: 55 octets; taken by port 0\n", "counters: npOutRequests 1 (+1)\n",
                 "SouthUnit port 0 to South port 0: echo reply 7.1 from 10.2.2.14 to 10.1.1.4\n",
                 "55 octets at 64000 bit/s: 6.9 ms on the wire; hop count 64; slot 0,",
                 "North port 0 to ControlRoom port 0: echo reply 7.1", "hop count 61; slot ",
                 "ControlRoom receives echo reply 7.1", "the reply says: identifier 7, sequence 1, hop count seen 5, "
                 "MTU 1500, timestamp 77, 16 octets of data\n")
        self.assertEqual(self.scenes["27"].count("answers "), 1)

    def test_each_relay_on_the_way_answers(self):
        self.has("28", "North receives echo request 7.2", "onward: sent on (1); taken by port 2\n",
                 "answers the echo: 39 octets; taken by port 0\n", "Buoy receives echo request 7.2",
                 "REFUSED (10), hop count used up; no port took it\n", "answers the echo: 39 octets; taken by port 0\n",
                 "hop count seen 1, MTU 1500, no timestamp, 0 octets of data\n", "1 sent, 14 arrivals")

    def test_no_echo_to_many(self):
        for_many = "answers no echo: the request is for a broadcast or multicast address\n"
        self.has("29", "North receives echo request 7.4", "here: DELIVERED (1)", for_many, "North receives echo "
                 "request 7.5", for_many, "North receives echo request 7.6", "answers no echo: the request has no hop "
                 "count\n", "North receives echo request 7.7", "answers no echo: the request is flooded\n")
        self.assertEqual(self.scenes["29"].count(for_many), 6)
        self.lacks("29", "answers the echo")

    def test_echo_drop_and_no_way_back(self):
        self.has("30", "South receives echo request 7.8", "here: DELIVERED (1)", "answers no echo: echo drop is on\n",
                 "SouthUnit receives echo request 7.9", "answers the echo: REFUSED (11), no route; no port took it\n",
                 "counters: npOutNoRoutes 1 (+1), npOutRequests 4 (+1)\n")

    def test_a_reply_is_not_answered(self):
        self.has("31", "Buoy receives echo request 7.10", "answers the echo: 39 octets", "North receives echo reply "
                 "7.10 by port 2\n", "here: DELIVERED (1)", "the reply says: identifier 7, sequence 10,")
        self.assertEqual(self.scenes["31"].count("answers the echo"), 1)

    def test_a_cut_link_loses_what_is_on_it(self):
        self.has("32", "(Buoy port 1 is cut off: what it sends and gets is lost)\n", "Buoy receives",
                 "sent on (1); taken by port 1\n", "Buoy port 1 to South port 1: echo request 7.11 is LOST, the link is "
                 "cut\n")
        self.has("33", "(Buoy port 1 has its link again)\n", "; 0 lost)\n")
        self.assertEqual(self.output.count("LOST"), 1)

    def test_what_arrives_at_one_moment(self):
        moment = re.search(r"([\d.]+) s  South receives", self.scenes["34"])[1]
        self.has("34", f"{moment} s  South receives \"NorthUnit: the tank is empty\" by port 4\n", "taken by port 1\n",
                 "port 1: header rewritten, 13 octets, 6 more than came",
                 f"{moment} s  South receives \"SouthUnit: the tank is empty\" by port 0\n", "taken by port 1\n",
                 "port 1: header kept, 7 octets\n",
                 f"{moment} s  South receives \"East: biocide runs low\" by port 2\n", "REFUSED (28)",
                 f"{moment} s  South receives \"West: STOP, pipe leaks\" by port 3\n", "taken by port 1\n",
                 " (+4), npForwDatagrams ", " (+3), flood-unmarked 1 (+1)\n",
                 f"{moment} s  South port 1 to Buoy port 1: \"West: STOP, pipe leaks\"", "precedence 9, 2 still wait\n",
                 "from 10.1.1.14 to 10.1.1.20\n", "from 14 to 20\n")

    def test_counters_and_ledger(self):
        self.assertIn(
            "\nNorth\n   counters: npInReceives 87, npInUnknownProtos 1, npInDelivers 11, npForwDatagrams 81, "
            "npOutNoRoutes 1, npOutDiscards 2, npOutRequests 5; all others 0\n"
            "   port 0: granted 18 = handed out 18 + waiting 0 + dropped 0\n"
            "   port 1: granted 4 = handed out 4 + waiting 0 + dropped 0\n"
            "   port 2: granted 67 = handed out 65 + waiting 0 + dropped 2\n"
            "   port 3: granted 1 = handed out 1 + waiting 0 + dropped 0\n"
            "   port 4: granted 0 = handed out 0 + waiting 0 + dropped 0\n", self.output)
        self.assertIn(
            "\nStormy\n   counters: npInReceives 8, npForwDatagrams 7; all others 0\n"
            "   port 0: granted 0 = handed out 0 + waiting 0 + dropped 0\n"
            "   port 1: granted 7 = handed out 7 + waiting 0 + dropped 0\n"
            "   counters of mission 1: npInReceives 1, npForwDatagrams 1; all others 0\n"
            "   port 2: granted 0 = handed out 0 + waiting 0 + dropped 0\n"
            "   port 3: granted 1 = handed out 1 + waiting 0 + dropped 0\n", self.output)
        for relay in ("ControlRoom", "NorthUnit", "Buoy", "South", "SouthUnit", "East", "West", "Office",
                      "Satellite", "Station", "Ship", "Calm", "Works", "Works2", "Tank", "Tank2", "Harbour",
                      "Shore", "Well1", "Well2", "Well3", "Well4", "Well5", "Valves", "Pier"):
            self.assertRegex(self.output, f"\n{relay}\n   counters: .*\n   port 0: granted ")


class Small(unittest.TestCase):
    def test_entries_that_still_wait(self):
        status, output, _ = fly_text(SMALL + "hold Middle 1\nsend Left 0 to 10.2.2.14 from 10.1.1.4 times 3 "
                                     "data \"dose\"\nrun\nexpect Middle waiting 1 3\n")
        self.assertEqual(status, 0, output)
        self.assertIn("granted 3 = handed out 0 + waiting 3 + dropped 0", output)

    def test_the_mtu_is_the_library_s(self):
        """Its 30 octets hold the header as it goes out, and the data."""
        for addresses, asks, header in (("to 10.2.2.14 from 10.1.1.4", "", 12),
                                        ("to 10.2.2.14 from 10.1.1.4", " asks hops", 13),
                                        ("to 20 from 4", "", 12), ("to 20 from 4", " asks checksum", 14),
                                        ("to 20 from 4", " asks both", 15)):
            order = (SMALL + f"route Middle 1 10.1.1.20 255.255.255.255 1 up{asks}\n"
                     f"route Middle 0 10.2.2.0 255.255.255.0 1 up{asks}\n"
                     f"send Left 0 {addresses} data \"%s\"\nrun\nexpect Middle %s\n")
            for octets, due in ((30 - header, "took 1"), (31 - header, "refused 14")):
                status, output, _ = fly_text(order % ("x" * octets, due))
                self.assertEqual(status, 0, output)

    def test_a_link_that_comes_late(self):
        late = SMALL.replace("link Middle 1 Right 0 2400\n", "")
        order = "send Left 0 to 10.2.2.14 from 10.1.1.4 data \"dose # 2\" # a comment\nrun\nexpect Middle waiting 1 1\n"
        status, output, _ = fly_text(late + order + "link Middle 1 Right 0 2400\nrun\n"
                                     "expect Right delivered \"dose # 2\"\n")
        self.assertEqual(status, 0, output)

    def test_a_failed_expectation(self):
        order = SMALL + "send Left 0 to 10.2.2.14 from 10.1.1.4 data \"dose\"\nrun\n"
        for wrong in ("Right nothing", "Middle refused 13", "Right delivered \"dos\"", "Middle took 0",
                      "Middle dropped 1", "Middle counter left-domain 1", "Middle waiting 1 1",
                      "Right order \"dose\" \"other\"", "Left took -", "Right arrivals 2",
                      "Right named 10.1.1.14", "Right named 10.2.2.14 from 10.2.2.4", "Left named 10.1.1.4",
                      "Middle header 1 rewritten 12", "Middle header 1 kept 13", "Middle header 0 kept 12"):
            status, output, complaints = fly_text(order + f"expect {wrong}\nexpect Right delivered \"dose\"\n")
            self.assertEqual((status, complaints), (1, ""), wrong)
            self.assertIn("NOT AS EXPECTED: " + wrong + "\n", output)
            self.assertIn("1 of 2 expectations held", output)

    def test_what_is_told_otherwise_is_found(self):
        twin = SMALL.replace("Left", "Left2").replace("Middle", "Middle2").replace("Right", "Right2")
        order = "send Left%s 0 to 10.2.2.14 from 10.1.1.4 %sdata \"dose\"\n"
        asks = twin.replace("1 up\n", "1 up asks hops\n")
        for other, second, status in (twin, "", 0), (twin, "hops 1 ", 1), (twin, "precedence 1 ", 1), (asks, "", 1):
            text = SMALL + other + order % ("", "") + order % ("2", second) + "run\nbeside Middle Middle2\n"
            ended, output, _ = fly_text(text)
            self.assertEqual(ended, status, output)
            self.assertEqual("  NOT EQUAL\n" in output, status == 1)
            self.assertEqual("NOT AS EXPECTED: mission 0 is told the same by both" in output, status == 1)

    def test_a_failed_expectation_of_a_flood(self):
        for wrong in ("expect One sent 2", "expect Two sent 0", "expect One pairs 0", "expect One refused 30",
                      "expect One pairs 1 mission 1", "copies 6 without 7", "copies 5 without 8"):
            text = FLOOD + "scene x\n" + ORDER % "hops 4 " + f"{wrong}\nexpect One sent 1\ncopies 5 without 7\n"
            status, output, complaints = fly_text(text)
            self.assertEqual((status, complaints), (1, ""), wrong)
            self.assertIn("NOT AS EXPECTED: " + wrong.replace("expect ", "") + "\n", output)
            self.assertIn("2 of 3 expectations held", output)

    def test_a_sweep_frees_what_is_older_than_the_lifetime(self):
        """The order comes in second 0. An age that is the lifetime is not over it."""
        for lifetime, second, left in ((0, 0, 1), (0, 1, 0), (5, 5, 1), (5, 6, 0), (4294967295, 4294967295, 1),
                                       (4294967294, 4294967295, 0)):
            status, output, _ = fly_text(FLOOD + ORDER % "" + f"lifetime One {lifetime}\nsweep One at {second}\n"
                                         f"expect One pairs {left}\nexpect Two pairs 1\n")
            self.assertEqual(status, 0, output)
            self.assertIn(f"One sweeps at second {second}; pairs held: 1 before, {left} after\n", output)

    def test_the_second_is_that_of_the_clock(self):
        """A sweep in the second of the last arrival is good, and one in the second before is not."""
        text = FLOOD + "wait 9\n" + ORDER % "" + "sweep One at %u\nsweep One\n"
        self.assertNotIn("REFUSED", fly_text(text % 9)[1])
        self.assertEqual(fly_text(text % 8)[1].count("REFUSED (29)"), 1)
        self.assertEqual(fly_text(text % 10)[1].count("REFUSED (29)"), 1)

    def test_what_is_on_a_wire_arrives_while_time_passes(self):
        order = ORDER.replace("run\n", "") % ""
        status, output, _ = fly_text(FLOOD + order + "wait 1\nexpect Three arrivals 2\n" + order + "run\n"
                                     "expect One arrivals 2\n")
        self.assertEqual(status, 0, output)
        self.assertRegex(output, r"\n    1\.0000 s  Left sends ")

    def test_a_stamp_for_each(self):
        for word, held in ("stamp", 1), ("stamps", 5):
            status, output, _ = fly_text(FLOOD + ORDER.replace("stamp 7", f"{word} 7 times 5") % ""
                                         + f"expect One arrivals 5\nexpect One pairs {held}\n")
            self.assertEqual(status, 0, output)

    def test_a_mission_that_begins_anew(self):
        """What it held is gone, and so is what was granted to its ports."""
        status, output, _ = fly_text(FLOOD + ORDER % "" + "fresh One\nexpect One pairs 0\nexpect One counter "
                                     "npInReceives 0\n" + ORDER % "" + "expect One took 1,2\nexpect Two took -\n")
        self.assertEqual(status, 0, output)
        self.assertIn("\nOne\n   counters: npInReceives 1, npInDelivers 1, npForwDatagrams 1; all others 0\n"
                      "   port 0: granted 0 = handed out 0 + waiting 0 + dropped 0\n"
                      "   port 1: granted 1 = handed out 1 + waiting 0 + dropped 0\n", output)

    def test_what_waits_is_not_lost(self):
        status, _, complaints = fly_text(FLOOD + "hold One 1\n" + ORDER % "" + "fresh One\n")
        self.assertEqual(status, 2)
        self.assertIn("expected a mission for which nothing waits, found 'One'", complaints)

    def test_the_walk_counts_what_a_relay_without_pairs_sends(self):
        """The relay that forgets really sends so many, on the ring and on the mesh, as long as the hop count lasts."""
        for text, hops in ((FLOOD + "scene x\n" + ORDER % "hops 9 ", 9), (scenes(21, 22), 16),
                           (scenes(21, 23).replace("hops 8", "hops 5"), 5)):
            text = text.split("\nsay Shore repeats")[0] if hops == 16 else text
            status, output, _ = fly_text(text + "\ncopies 0 without 0\n", program="rehearsal_wrong",
                                         WRONG_RELAY="forget")
            self.assertEqual(status, 1)
            told = re.findall(r" on all wires: (\d+) as .*\n +(\d+) by the same .* hop count (\d+)\n", output)[-1]
            self.assertEqual((told[0], told[2]), (told[1], str(hops)))
            self.assertNotIn("(30)", output)

    def test_relays_that_do_not_know_an_order_again(self):
        """One that forgets the pairs sends it on again; one that keeps the source alone does not send the next."""
        for wrong, says in (("forget", ("Well1 sent 1", "Well3 took -", "copies 8 without 41", "Well1 pairs 2")),
                            ("source", ("Well1 sent 1", "Valves delivered \"all: close valve 1\"",
                                        "copies 8 without 41"))):
            status, output, complaints = fly_text(scenes(21, 22), program="rehearsal_wrong", WRONG_RELAY=wrong)
            self.assertEqual((status, complaints), (1, ""))
            for line in says:
                self.assertIn(f"NOT AS EXPECTED: {line}\n", output)
            self.assertIn("the ledger closes on every port.\n", output)

    def test_relays_that_sweep_too_little_or_too_much(self):
        for wrong, says in (("idle", ("Well2 pairs 0", "Well2 took 0,2,3")),
                            ("eager", ("Well3 pairs 1", "Well3 sent 2"))):
            status, output, complaints = fly_text(scenes(21, 24), program="rehearsal_wrong", WRONG_RELAY=wrong)
            self.assertEqual((status, complaints), (1, ""))
            for line in says:
                self.assertIn(f"NOT AS EXPECTED: {line}\n", output)

    def test_a_take_foretold(self):
        status, output, _ = fly_text(WAITS)
        self.assertEqual(status, 0, output)
        self.assertEqual(output.count("foretold: \"dose\""), 2)
        self.assertIn("goes out at take 2 + 1 + 1 = 4 of port 1; made since its placing: 0", output)
        self.assertIn("as foretold (take 4): Middle port 1 hands out \"dose\" at take 4\n", output)
        self.assertIn("7 of 7 entries went out at the take foretold.\n", output)

    def test_what_is_dropped_costs_no_take(self):
        status, output, _ = fly_text(SMALL + "hold Middle 1\nsend Left 0 to 10.2.2.14 from 10.1.1.4 times 31 data "
                                     "\"log\"\nsend Left 0 to 10.2.2.14 from 10.1.1.4 data \"dose\"\nrun\n"
                                     "foretell Middle 1 \"dose\"\nsend Left 0 to 10.2.2.14 from 10.1.1.4 "
                                     "precedence 15 data \"stop\"\nrun\nexpect Middle dropped 1\n"
                                     "take Middle 1\nrelease Middle 1\nrun\n")
        self.assertEqual(status, 0, output)
        self.assertEqual(output.count("foretold: \"dose\""), 1)
        self.assertIn("as foretold (take 32): Middle port 1 hands out \"dose\" at take 32\n", output)

    def test_a_relay_that_swaps_entries(self):
        status, output, complaints = fly_text(WAITS, program="rehearsal_wrong", WRONG_RELAY="swap")
        self.assertEqual((status, complaints), (1, ""))
        self.assertIn("NOT AS FORETOLD (take 4): Middle port 1 hands out \"dose\" at take 3\n", output)
        self.assertIn("NOT AS FORETOLD (take 1): Middle port 1 keeps \"stop\" at take 1\n", output)
        self.assertIn("1 of 1 expectations held; the ledger closes on every port.\n", output)

    def test_a_relay_that_repeats_entries(self):
        status, output, complaints = fly_text(WAITS, program="rehearsal_wrong", WRONG_RELAY="repeat")
        self.assertEqual((status, complaints), (1, ""))
        self.assertIn("NOT AS FORETOLD: Middle port 1 hands out slot 4, which does not wait there\n", output)
        self.assertIn("the ledger DOES NOT CLOSE.", output)

    def test_bad_lines(self):
        at = SMALL.count("\n") + 1
        for line, says in (("sned Left 0", "expected node, port, link"),
                           ("node Left host", "a name that no other node has"),
                           ("node Other gateway", "'router' or 'host', found 'gateway'"),
                           ("port Other 0 10.1.1.4 255.255.255.0 9", "the name of a node, found 'Other'"),
                           ("port Left 8 10.1.1.4 255.255.255.0 9", "a port, 0 to 7, found '8'"),
                           ("port Left 1 10.1.1.256 255.255.255.0 9", "the port's address, found '10.1.1.256'"),
                           ("port Left 1 10.1.1.14 255.255.0.0 9", "found '22: wrong mask or prefix bits'"),
                           ("port Left 1 10.1.1.15 255.255.255.0 9", "found '25: the wrong class of address'"),
                           ("port Left 1 10.1.1.14 255.255.255.0 0", "found '24: a code or size out of range"),
                           ("port Left 1 10.1.1.14 255.255.255.0", "an MTU, found the end of the line"),
                           ("port Left 1 10.1.1.14 255.255.255.0 9 9", "the end of the line, found '9'\n"),
                           ("link Left 0 Right 0 2400", "a port without a link"),
                           ("link Left 3 Right 3 2400", "a port that is set up"),
                           ("route Middle 1 10.2.2.0 255.255.255.0 1 up", "found '23: the same entry"),
                           ("route Middle 512 0.0.0.0 0.0.0.0 1 up", "found '21: no such place"),
                           ("route Middle 1 0.0.0.0 0.0.0.0 1 up mission 1", "or the other mission's port'"),
                           ("route Middle 1 0.0.0.0 0.0.0.0 1 up mission 2", "a mission, 0 or 1, found '2'"),
                           ("route Middle 1 0.0.0.0 0.0.0.0 1 up asks", "or 'both', found the end of the line"),
                           ("route Middle 1 0.0.0.0 0.0.0.0 1 up asks hop", "'checksum', 'hops' or 'both', found "),
                           ("route Middle 1 0.0.0.0 0.0.0.0 1 up asks hops checksum", "of the line, found 'checksum'"),
                           ("route Middle 1 0.0.0.0 0.0.0.0 1 up asks hops mission 0 asks both", "found 'asks both'"),
                           ("route Middle 1 0.0.0.0 0.0.0.0 1 asks hops", "'testing' or 'out', found 'asks'"),
                           ("group Middle 0 10.9.9.31 0 - mission 1", "found '21: no such place"),
                           ("port Left 0 10.1.1.4 255.255.255.0 1500", "found '35: the port is set up already'"),
                           ("beside Left Other", "the name of a node, found 'Other'"),
                           ("beside Left Right 1", "the end of the line, found '1'"),
                           ("route Middle 1 0.0.0.0 0.0.0.0 1 high", "found 'high'"),
                           ("group Middle 0 10.9.9.31 0;1 -", "found '0;1'"),
                           ("path Middle 0 10.9.9.40 0,1 there", "'here' or 'on', found 'there'"),
                           ("send Left 0 data \"x\"", "'to' or 'path' before the data"),
                           ("send Left 0 to 14 data \"x\"", "'from' with 'to'"),
                           ("send Left 0 to 14 from 10.1.1.4 data \"x\"", "two addresses of one octet, or two of four"),
                           ("send Left 0 to 14 from 4 hops 256 data \"x\"", "a hop count, 0 to 255, found '256'"),
                           ("send Left 0 to 14 from 4 speed 3 data \"x\"", "found 'speed'"),
                           ("send Left 0 to 14 from 4 data \"x", "a quote that ends the text"),
                           ("send Left 0 to 14 from 4 data x", "the data as \"text\", found 'x'"),
                           ("send Left 0 to 14 from 4", "times, echo or data, found the end of the line"),
                           ("send Left 0 to 14 from 4 stamp data \"x\"", "a stamp, 0 to 4294967295, found 'data'"),
                           ("send Left 0 to 14 from 4 stamp 4294967296 data \"x\"", "found '4294967296'"),
                           ("send Left 0 to 14 from 4 stamps 4294967295 times 2 data \"x\"",
                            "fields that hj_build takes, found 'a field out of range'"),
                           ("lifetime Left", "a lifetime in seconds, 0 to 4294967295, found the end of the line"),
                           ("lifetime Left 4294967296", "a lifetime in seconds, 0 to 4294967295, found '4294967296'"),
                           ("lifetime Left 1 mission 1", "the end of the line, found 'mission 1'"),
                           ("fresh Left mission 2", "a mission, 0 or 1, found '2'"),
                           ("fresh Left now", "the end of the line, found 'now'"),
                           ("sweep Other", "the name of a node, found 'Other'"),
                           ("sweep Left 7", "the end of the line, found '7'"),
                           ("sweep Left at x", "a second, 0 to 4294967295, found 'x'"),
                           ("sweep Left mission 0 at 7", "the end of the line, found 'at 7'"),
                           ("wait 0", "how many seconds, 1 to 1000000, found '0'"),
                           ("wait", "how many seconds, 1 to 1000000, found the end of the line"),
                           ("copies 1 without 1", "an order that was flooded in this scene, found 'copies'"),
                           ("expect Left sent", "how many were sent on, found the end of the line"),
                           ("expect Left pairs 65", "how many pairs, 0 to 64, found '65'"),
                           ("expect Left refused 31", "a number, 1 to 30, found '31'"),
                           ("send Left 1 to 14 from 4 data \"x\"", "a port with a link"),
                           ("send Left 0 to 14 from 4 echo 7", "a sequence number, 0 to 65535, found the end"),
                           ("send Left 0 to 14 from 4 echo 65536 1", "an identifier, 0 to 65535, found '65536'"),
                           ("send Left 0 to 14 from 4 echo 1 1 octets 401", "octets of data, 0 to 400, found '401'"),
                           ("send Left 0 to 14 from 4 echo 1 1 data \"x\"", "the end of the line, found 'data "),
                           ("echo-drop Left", "'on' or 'off', found the end of the line"),
                           ("echo-drop Left 1", "'on' or 'off', found '1'"),
                           ("cut Left 1", "a port with a link, found 'Left'"),
                           ("cut Left 0 in", "the end of the line, found 'in'"),
                           ("mend Middle 2", "a port with a link, found 'Middle'"),
                           ("mend Left 0 out", "the end of the line, found 'out'"),
                           ("expect Left replies", "how many replies, found the end of the line"),
                           ("expect Left reply 1", "a sequence number, 0 to 65535, found the end of the line"),
                           ("expect Left reply 1 1 rate 3", "from, hops, mtu, stamp or octets, found 'rate 3'"),
                           ("take Left 8", "a port, 0 to 7, found '8'"),
                           ("foretell Middle 1 \"dose\"", "the data of an entry that waits on the port, found 'dose'"),
                           ("foretell Middle 2 \"dose\"", "a port with a link"),
                           ("foretell Middle 1 dose", "the data as \"text\", found 'dose'"),
                           ("step", "something on a wire, found 'nothing'"),
                           ("expect Left happy", "found 'happy'"),
                           ("expect Left arrivals", "how many arrivals, found the end of the line"),
                           ("expect Left named 14", "an address of four octets, found '14'"),
                           ("expect Left named 10.1.1.4 from 4", "an address of four octets, found '4'"),
                           ("expect Left header 0 new 12", "'kept' or 'rewritten', found 'new'"),
                           ("expect Left header 0 kept 51", "the header's octets, 4 to 50, found '51'"),
                           ("expect Left counter npOut 1", "the name of a counter, found 'npOut'"),
                           ("say " + "x" * 1100, "at most 1000 characters")):
            status, _, complaints = fly_text(SMALL + line + "\nsay not reached\n")
            self.assertEqual(status, 2, line)
            self.assertIn(f", line {at}: expected ", complaints, line)
            self.assertIn(says, complaints, line)

    def test_copies_that_cannot_be_counted(self):
        for hops, line, says in (("", "copies 1 without 1", "a hop count of at most 20, found 'copies'"),
                                 ("hops 21 ", "copies 1 without 1", "a hop count of at most 20, found 'copies'"),
                                 ("hops 9 ", "copies", "how many copies, found the end of the line"),
                                 ("hops 9 ", "copies 5", "'without', and how many without the pairs, found the end"),
                                 ("hops 9 ", "copies 5 with 9", "how many without the pairs, found 'with'"),
                                 ("hops 9 ", "scene y\ncopies 5 without 9", "an order that was flooded in this scene")):
            status, _, complaints = fly_text(FLOOD + "scene x\n" + ORDER % hops + line + "\n")
            self.assertEqual(status, 2, line)
            self.assertIn(says, complaints)

    def endless(self, text):
        status, _, complaints = fly_text(text)
        self.assertEqual(status, 2)
        self.assertIn("expected an end (a ring needs a hop count), found '20000 arrivals'", complaints)

    def test_a_ring_ends_by_a_hop_count(self):
        self.assertEqual(fly_text(RING % ("", "hops 255 "))[0], 0)
        self.endless(RING % ("", ""))

    def test_a_ring_ends_where_a_route_asks_for_a_hop_count(self):
        """End adds 64, and the 64th hop from there comes back to End."""
        for asks in " asks hops", " asks both", " asks hops mission 0", " mission 0 asks both":
            status, output, _ = fly_text(RING % (asks, "") + "expect End refused 10\nexpect Middle arrivals 33\n"
                                         "expect End arrivals 33\n")
            self.assertEqual(status, 0, output)
        self.endless(RING % (" asks checksum", ""))

    def test_a_ring_of_groups_needs_the_sender_s_hop_count(self):
        """A group takes no route, and so no route adds a hop count."""
        ring = RING.replace("quiet\n", "port End 1 10.1.1.10 255.255.255.0 1500\n"
                            "port Middle 3 10.1.1.12 255.255.255.0 1500\nlink End 1 Middle 3 9600\n"
                            "group Middle 0 10.9.9.31 2,3 -\ngroup End 0 10.9.9.31 0,1 -\nquiet\n")
        ring = ring.replace("to 10.7.7.14", "to 10.9.9.31")
        self.assertEqual(fly_text(ring % (" asks hops", "hops 9 "))[0], 0)
        self.endless(ring % (" asks hops", ""))

    def test_relays_that_name_another_unit(self):
        """The first scene, with the accident of the earlier rehearsal and with one like it."""
        with open(STORY, encoding="ascii") as file:
            scene = file.read().split("\nscene 2.")[0]
        for wrong, wire in ("keep", "from 4 to 14"), ("fill", "from 10.2.2.4 to 10.2.2.14"):
            status, output, complaints = fly_text(scene, program="rehearsal_wrong", WRONG_RELAY=wrong)
            self.assertEqual((status, complaints), (1, ""))
            self.assertIn("   NOT AS NAMED: Buoy port 1 took \"dose biocide 20 litres\" from 10.2.2.4 to 10.2.2.14; "
                          "it came from 10.1.1.4 to 10.1.1.14\n", output)
            self.assertIn("South port 0 to SouthUnit port 0: \"dose biocide 20 litres\" " + wire, output)
            self.assertIn("NOT AS EXPECTED: NorthUnit delivered \"dose biocide 20 litres\"\n", output)
            self.assertIn("NOT AS EXPECTED: SouthUnit nothing\n", output)
            self.assertIn("\n2 of 3 copies name what the datagram named that came.\n", output)

    def test_a_relay_that_loses_entries(self):
        status, output, _ = fly(STORY, program="rehearsal_wrong", WRONG_RELAY="lose")
        self.assertEqual(status, 1)
        self.assertRegex(output, r"   port 2: granted .*  DOES NOT CLOSE\n")
        self.assertIn("the ledger DOES NOT CLOSE.", output)
        self.assertIn("NOT AS FORETOLD (take 1): North port 2 keeps \"STOP the biocide pump\" at take 1\n", output)

    def test_relays_that_answer_wrongly(self):
        """Under another name, to another system, with another hop count: each in the first scene of echoes."""
        with open(STORY, encoding="ascii") as file:
            story = file.read()
        text = story.split("\nscene 1.")[0] + "\nscene 27." + story.split("\nscene 27.")[1].split("\nscene 28.")[0]
        said = "ControlRoom reply 7 1 from 10.2.2.14 hops 5 mtu 1500 stamp 77 octets 16"
        named = "NOT AS NAMED: SouthUnit port 0 took echo reply 7.1 from %s; the request came from 10.1.1.4 to 10.2.2.14\n"
        for wrong, line in (("stranger", named % "10.2.2.46 to 10.1.1.4"), ("astray", named % "10.2.2.14 to 10.1.1.36"),
                            ("less", f"NOT AS EXPECTED: {said}\n"), ("", f"as expected: {said}\n")):
            status, output, complaints = fly_text(text, program="rehearsal_wrong", WRONG_RELAY=wrong)
            self.assertEqual((status, complaints), (int(wrong != ""), ""), output)
            self.assertIn(line, output)

    def test_why_there_is_no_answer(self):
        """A call that is refused as a whole has its number; echo drop is on with any word but 0."""
        text = ECHO + "echo-drop Right on\nsend Left 0 to 10.2.2.14 from 10.1.1.4 hops 8 echo 7 1\nrun\n"
        for wrong, why in (("", "echo drop is on"), ("two", "echo drop is on"), ("cramped", "too little room for the output")):
            output = fly_text(text, program="rehearsal_wrong", WRONG_RELAY=wrong)[1]
            self.assertIn(f"answers no echo: {why}\n", output)

    def test_a_reply_waits_like_any_other_entry(self):
        """It has the request's precedence, a full queue drops it, and its take is foretold."""
        order = "send Left 0 to 10.2.2.14 from 10.1.1.4 %s\n"
        text = ECHO + "hold Right 0\n" + order % "hops 8 precedence 1 echo 1 1" + order % "hops 8 precedence 3 echo 1 2"
        text += order % "hops 8 echo 1 3 octets 3" + "run\nexpect Right waiting 0 3\nrelease Right 0\nrun\n"
        status, output, _ = fly_text(text)
        self.assertEqual(status, 0, output)
        told = re.findall(r"Right port 0 to Middle port 1: echo reply (1\.\d) .*\n.*precedence (\d)", output)
        self.assertEqual(told, [("1.2", "3"), ("1.1", "1"), ("1.3", "0")])
        self.assertIn("\nRight\n   counters: npInReceives 3, npInDelivers 3, npOutRequests 3; all others 0\n", output)
        text = ECHO + "hold Right 0\nquiet\n" + order % "hops 8 times 33 echo 1 1" + "run\nloud\n"
        status, output, _ = fly_text(text + "expect Right waiting 0 32\nexpect Right counter npOutDiscards 1\n"
                                     "expect Right counter npOutRequests 33\n")
        self.assertEqual(status, 0, output)
        self.assertIn("   port 0: granted 33 = handed out 0 + waiting 32 + dropped 1\n", output)

    def test_a_reply_is_cut_at_the_arrival_port_s_mtu(self):
        text = ECHO.replace("port Right 0 10.2.2.14 255.255.255.0 1500", "port Right 0 10.2.2.14 255.255.255.0 %u")
        order = "send Left 0 to 10.2.2.14 from 10.1.1.4 hops 8 echo 9 9 octets 20\nrun\nexpect Left repl%s\n"
        for mtu, says in ((60, "y 9 9 mtu 60 octets 20"), (59, "y 9 9 mtu 59 octets 20"), (58, "y 9 9 octets 19"),
                          (39, "y 9 9 octets 0"), (38, "ies 0")):
            status, output, _ = fly_text(text % mtu + order % says)
            self.assertEqual(status, 0, output)
            self.assertEqual("answers no echo: the port's MTU leaves no room for a reply\n" in output, mtu == 38)

    def test_one_octet_echoes(self):
        """The request is written with four octets on its way, and the reply comes back with four."""
        text = ECHO + ("route Middle 2 10.1.1.20 255.255.255.255 1 up\nport Right 1 10.1.1.20 255.255.255.0 1500\n"
                       "send Left 0 to 20 from 4 hops 8 intermediate echo 5 6\nrun\nexpect Left replies 2\n"
                       "expect Left reply 5 6 from 10.1.1.2 hops 8\nexpect Left reply 5 6 from 10.1.1.20 hops 7\n")
        status, output, _ = fly_text(text)
        self.assertEqual(status, 0, output)
        self.assertIn("Middle port 0 to Left port 0: echo reply 5.6 from 2 to 4\n", output)
        self.assertIn("Right port 0 to Middle port 1: echo reply 5.6 from 10.1.1.20 to 10.1.1.4\n", output)

    def test_a_failed_expectation_of_a_reply(self):
        order = ECHO + "send Left 0 to 10.2.2.14 from 10.1.1.4 hops 8 stamp 4 echo 1 2 octets 3\nrun\n"
        right = "Left reply 1 2 from 10.2.2.14 hops 7 mtu 1500 stamp 4 octets 3"
        for wrong in ("Left reply 1 3", "Left reply 2 2", "Left reply 1 2 from 10.1.1.2", "Left reply 1 2 hops 8",
                      "Left reply 1 2 mtu 30", "Left reply 1 2 stamp 0", "Left reply 1 2 octets 2", "Left replies 0",
                      "Left replies 2", "Right reply 1 2", "Right replies 1"):
            status, output, complaints = fly_text(order + f"expect {wrong}\nexpect {right}\n")
            self.assertEqual((status, complaints), (1, ""), wrong)
            self.assertIn(f"NOT AS EXPECTED: {wrong}\n", output)
            self.assertIn("1 of 2 expectations held", output)

    def test_a_scene_begins_without_replies(self):
        echo = "send Left 0 to 10.2.2.14 from 10.1.1.4 hops 8 echo 1 2\nrun\nexpect Left replies 1\n"
        status, output, _ = fly_text(ECHO + echo + "scene y\nexpect Left replies 0\n" + echo)
        self.assertEqual(status, 0, output)

    def test_what_is_lost_on_a_link(self):
        """What is on it when it is cut, and what is sent while it is; not what is sent after it is mended."""
        order = "send Left 0 to 10.2.2.14 from 10.1.1.4 data \"%s\"\n"
        text = (SMALL + order % "one" + "cut %s\nmend Left 0\nrun\nexpect Middle nothing\ncut %s\n" + order % "two"
                + "mend Middle 0\nrun\nexpect Middle nothing\n" + order % "three" + "run\nexpect Right delivered \"three\""
                "\nexpect Middle arrivals 1\n")
        for end in "Left 0", "Middle 0", "Left 0 out":
            status, output, _ = fly_text(text % (end, end))
            self.assertEqual((status, output.count(" is LOST, the link is cut\n")), (0, 2), output)
        status, output, _ = fly_text(SMALL + "cut Middle 0 out\n" + order % "four" + "run\nexpect Middle arrivals 1\n")
        self.assertEqual((status, output.count("LOST")), (0, 0), output)

    def test_what_is_lost_is_counted_while_it_is_quiet(self):
        output = fly_text(SMALL + "cut Left 0\nquiet\nsend Left 0 to 14 from 4 times 3 data \"x\"\nrun\nloud\n")[1]
        self.assertIn("(not shown: 3 sent, 0 arrivals, 0 of them dropped by a full port; 3 lost)\n", output)

    def test_echoes_of_two_missions_side_by_side(self):
        """Equal answers are, and one with echo drop differs."""
        twin = ECHO.replace("Left", "Left2").replace("Middle", "Middle2").replace("Right", "Right2")
        order = "send Left%s 0 to 10.1.1.2 from 10.1.1.4 hops 8 echo 1 2\n"
        for drop, status in ("off", 0), ("on", 1):
            text = ECHO + twin + f"echo-drop Middle2 {drop}\n" + order % "" + order % "2" + "run\nbeside Middle Middle2\n"
            ended, output, _ = fly_text(text)
            self.assertEqual(ended, status, output)
            self.assertIn("port 0, slot 0: an echo: onward 1, took 1, dropped 0", output)
            self.assertEqual("  NOT EQUAL\n" in output, status == 1)

    def test_a_take_that_cannot_be_sent(self):
        order = "send Left 0 to 10.2.2.14 from 10.1.1.4 data \"dose\"\n"
        late = SMALL.replace("link Middle 1 Right 0 2400\n", "")
        for text, says in ((SMALL + order + "take Left 0\n", "a port whose wire is free, found 'Left'"),
                           (late + order + "run\ntake Middle 1\n", "a port with a link, found 'Middle'")):
            status, _, complaints = fly_text(text)
            self.assertEqual(status, 2)
            self.assertIn(says, complaints)

    def test_arguments(self):
        for words in ((), (STORY, STORY), ("--batches",), ("--batches", STORY, STORY)):
            status, output, complaints = fly(*words)
            self.assertEqual((status, output), (2, ""))
            self.assertTrue(complaints.startswith("rehearsal: say one scenario"))
        status, _, complaints = fly(os.path.join(ROOT, "scenarios/none.txt"))
        self.assertEqual(status, 2)
        self.assertIn("none.txt: No such file", complaints)


class Batches(unittest.TestCase):
    """Each story is flown by single calls and by batches, and the two are compared octet by octet."""

    def batches(self, *words):
        """How many there were of each number of items."""
        singly, batched = fly(*words), fly("--batches", *words)
        self.assertEqual(singly, (batched[0], batched[1], ""))
        self.assertEqual(singly[0], 0, singly[1])
        counts = re.findall(r"^rehearsal: (\d+) batches of (\d)\n", batched[2], re.M)
        self.assertEqual("".join(f"rehearsal: {times} batches of {items}\n" for times, items in counts), batched[2])
        return {int(items): int(times) for times, items in counts}

    def batches_of(self, text):
        with tempfile.NamedTemporaryFile("w", suffix=".txt", encoding="ascii") as file:
            file.write(text)
            file.flush()
            return self.batches(file.name)

    def test_the_story(self):
        """As many as docs/REHEARSAL.md says."""
        self.assertEqual(self.batches(STORY), {1: 891, 2: 6, 3: 14, 4: 253})

    def test_other_stories(self):
        """Entries that wait, a flood and a ring."""
        for text in WAITS, FLOOD + ORDER % "hops 4 ", RING % (" asks hops", ""):
            self.assertGreater(self.batches_of(text)[1], 2)

    def test_the_option_may_come_last(self):
        self.assertEqual(fly(STORY, "--batches"), fly("--batches", STORY))

    def test_each_sees_what_those_before_it_did(self):
        """The leg has one place left: it is the first one's. A flood that the first one brought is known again."""
        leg_4 = "10.4.1.4"
        text = star() + "hold Hub 4\nquiet\n" + leaf_sends(1, leg_4, "times 31 data \"x\"") + "run\nloud\n"
        text += leaf_sends(1, leg_4) + leaf_sends(2, leg_4) + "run\nexpect Hub waiting 4 32\nexpect Hub refused 15\n"
        for leaf in 1, 2:
            text += f"send Leaf{leaf} 0 to 10.255.255.255 from 10.9.1.4 flood stamp 7 data \"stop\"\n"
        text += "scene x\nrun\nexpect Hub arrivals 2\nexpect Hub sent 1\nexpect Hub took -\n"
        self.assertEqual(self.batches_of(text)[2], 2)

    def test_those_behind_a_refused_one_are_heard(self):
        """11 for the onward half, then 28 for the whole; the third is sent on."""
        fields = "precedence 1 data \"dose\""
        text = star() + leaf_sends(1, "10.7.7.4", fields) + leaf_sends(2, "10.4.1.4", "flood " + fields)
        text += leaf_sends(3, "10.4.1.4", fields) + "run\nexpect Hub took 4\nexpect Hub counter npOutNoRoutes 1\n"
        text += "expect Hub counter flood-unmarked 1\nexpect Leaf4 delivered \"dose\"\n"
        self.assertEqual(self.batches_of(text), {1: 1, 3: 1})

    def test_a_second_that_is_past(self):
        text = star() + "sweep Hub at 9\n" + "".join(leaf_sends(i, "10.4.1.4") for i in (1, 2, 3))
        text += "run\nexpect Hub refused 29\nexpect Hub arrivals 3\nexpect Hub counter npInReceives 0\n"
        self.assertEqual(self.batches_of(text), {3: 1})

    def test_an_echo_request_is_the_last_of_its_batch(self):
        """It is answered before the next one is heard: the reply stands between the two orders on the leg."""
        text = star() + "hold Hub 2\n" + leaf_sends(1, "10.2.1.4", "hops 8 data \"order 12\"")
        text += leaf_sends(2, "10.2.1.2", "hops 8 echo 1 1") + leaf_sends(3, "10.2.1.4", "hops 8 data \"order 34\"")
        text += "run\nforetell Hub 2 \"order 34\"\nrelease Hub 2\nrun\nexpect Leaf2 reply 1 1 hops 8\n"
        self.assertEqual(self.batches_of(text), {1: 4, 2: 1})
        self.assertIn("\"order 34\" goes out at take 2 + 0 + 1 = 3 of port 2;", fly_text(text)[1])

    def test_two_missions_share_no_batch(self):
        orders = "".join(leaf_sends(leaf, f"10.{to}.1.4") for leaf, to in ((1, 3), (2, 4), (3, 1), (4, 2))) + "run\n"
        orders += "".join(f"expect Leaf{i} arrivals 1\n" for i in range(1, 5))
        self.assertEqual(self.batches_of(star() + orders), {1: 4, 4: 1})
        self.assertEqual(self.batches_of(star(0, 1, 0, 1) + orders), {1: 4, 2: 2})

    def test_a_batch_ends_where_a_step_does(self):
        text = star() + "".join(leaf_sends(i, "10.4.1.4") for i in (1, 2, 3))
        for steps, counts in (1, {1: 4, 2: 1}), (2, {1: 4, 2: 1}), (3, {1: 3, 3: 1}):
            self.assertEqual(self.batches_of(text + f"step {steps}\nexpect Hub arrivals {steps}\nrun\n"
                                             "expect Leaf4 arrivals 3\n"), counts)

    def test_what_is_lost_is_in_no_batch(self):
        text = star() + "".join(leaf_sends(i, "10.4.1.4") for i in (1, 2, 3))
        for leaf in 1, 2, 3:
            self.assertEqual(self.batches_of(text + f"cut Leaf{leaf} 0\nrun\nexpect Hub arrivals 2\n"), {1: 2, 2: 1})


if __name__ == "__main__":
    unittest.main()
