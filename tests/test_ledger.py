#!/usr/bin/env python3
"""build/ledger on the stored histories: their books balance, and no longer do
once a single answer is another one. And a line that lacks a word, for build/coverage
too, which reads answered traces by the same code.
"""
import glob
import os
import re
import subprocess
import unittest

ROOT = os.path.dirname(os.path.dirname(os.path.abspath(__file__)))


def stored(name):
    """The answered lines of a stored history, without its comments."""
    with open(os.path.join(ROOT, "tests/traces", name), encoding="ascii") as file:
        lines = [re.sub(r"\s*#.*", "", line.rstrip("\n")) for line in file]
    return [line for line in lines if line]


def run(lines, program, *words):
    ended = subprocess.run([os.path.join(ROOT, program), *words], input="\n".join(lines) + "\n",
                           capture_output=True, text=True, check=False)
    return ended.returncode, ended.stdout + ended.stderr


def ledger(lines):
    return run(lines, "build/ledger")


class Ledger(unittest.TestCase):
    def test_stored_histories(self):
        names = glob.glob(os.path.join(ROOT, "tests/traces/*.trace"))
        names = [name for name in names if not os.path.exists(name[:-6] + ".answers")]
        self.assertGreater(len(names), 7)
        for name in names:
            status, output = ledger(stored(name))
            self.assertEqual(status, 0, name + ": " + output)

    def refused(self, name, line, other, says):
        """One line of a history, once, exchanged for another."""
        lines = stored(name)
        at = lines.index(line)
        status, output = ledger(lines[:at] + [other] + lines[at + 1:])
        self.assertEqual(status, 1, output)
        self.assertIn(says, output)

    def test_another_entry_is_handed_out(self):
        self.refused("relay-queues.trace", "take 1 0 = 0 2 5", "take 1 0 = 0 4 5", "slot taken: due 2, found 4")
        self.refused("relay-queues.trace", "take 1 0 = 0 2 5", "take 1 0 = 0 2 3", "precedence taken: due 5, found 3")
        self.refused("relay-queues.trace", "take 1 0 = 0 2 5", "take 1 0 = 18 0 0", "an entry exactly where one waits")

    def test_a_header_is_lacking(self):
        line = "receive 0 1 400 20061a402104 0 0 = 0 0 1 6 20061a402104,200c1a410a0a0a210a0a0a04"
        self.refused("relay-rewrite.trace", line, line[:line.index(",")],
                     "a header for each port that took: due 2, found 1")

    def test_another_header(self):
        line = "receive 0 1 400 20061a401604 0 0 = 0 0 1 4 200f1b610a0a0a160a0a0a04405c61"
        for old, new, says in (("0a0a0a16", "0a0a0b16", "a header names another system"),  # the port's own domain
                               ("0a0a0a04", "0a0a0b04", "a header names another system"),
                               ("405c61", "3f5d61", "another hop count"),
                               ("200f1b", "20061b", "a length field that is not header and data"),
                               ("200f1b", "200f2b", "a header says something else")):
            self.refused("relay-rewrite.trace", line, line[:20] + line[20:].replace(old, new), says)
        line = "receive 0 1 400 20061a40ff04 0 0 = 0 1 1 6 20061a40ff04,200c1a410a0a0aff0a0a0a04"
        self.refused("relay-rewrite.trace", line, line.replace("200c1a410a0a0aff0a0a0a04", "20061a40ff04"),
                     "a header names another system")  # one octet in another domain

    def test_another_number_waits(self):
        self.refused("relay-queues.trace", "waiting 1 0 = 32", "waiting 1 0 = 31", "took = handed out + waiting")

    def test_each_counter(self):
        counters = "counters 0 = 24 6 2 12 1 2 0 0 1 0 0 0 0 0 0 0 0 0"
        for at in range(3, 21):
            words = counters.split()
            words[at] = str(int(words[at]) + 1)
            self.refused("relay-refusals.trace", counters, " ".join(words), "FAILED")

    def test_a_full_port_that_takes_an_entry(self):
        line = "receive 0 33 400 200c1a41c00002010a0a0004 0 0 = 0 0 15 0 -"
        other = "receive 0 33 400 200c1a41c00002010a0a0004 0 0 = 0 0 1 2 200c1a41c00002010a0a0004"
        self.refused("relay-queues.trace", line, other, "a full port took an entry")

    def test_15_without_a_full_port(self):
        line = "receive 0 1 400 200d1a43c00002010a0a000430 0 0 = 0 0 1 2 200d1a43c00002010a0a000430"
        other = "receive 0 1 400 200d1a43c00002010a0a000430 0 0 = 0 0 15 0 -"
        self.refused("relay-queues.trace", line, other, "15 without a full port")

    def test_discards_beyond_their_bounds(self):
        line = "counters 0 = 34 0 0 0 0 0 0 0 0 0 33 0 2 0 0 0 0 0"
        for discards in (0, 3):
            other = f"counters 0 = 34 0 0 0 0 0 0 0 0 0 33 0 {discards} 0 0 0 0 0"
            self.refused("relay-queues.trace", line, other, "npOutDiscards within its bounds")

    FLOOD = "20106a4b0a0408020a0a0a043c010203"

    def test_a_pair_kept_twice(self):
        line = f"receive 0 9 400 {self.FLOOD} 6 0 = 0 0 0 0 -"
        for answer in (f"0 0 1 8 {self.FLOOD}", "0 0 10 0 -", "0 0 11 0 -", "0 0 14 0 -"):
            self.refused("relay-floods.trace", line, line.replace("0 0 0 0 -", answer),
                         "ports wanted twice for a pair, and no free between")

    def test_a_pair_freed_and_not(self):
        self.refused("relay-floods.trace", "sweep 16 0 = 0", "sweep 15 0 = 0", "the pairs that are kept")
        self.refused("relay-floods.trace", "sweep 15 0 = 0", "sweep 16 0 = 0", "the pairs that are kept")
        self.refused("relay-floods.trace", "set_lifetime 5 = 0", "set_lifetime 4 = 0", "the pairs that are kept")

    def test_other_pairs(self):
        line = "pairs 0 = 0a0a0a04:1:010203:6"
        for other in ("0a0a0a04:1:010203:5", "0a0a0a05:1:010203:6", "0a0a0a04:2:010203:6", "0a0a0a04:1:010204:6",
                      "0a0a0a04:1:010203:6,", "0a0a0a04:1:010203:6,0a0a0a04:1:010203:6", "0a0a0a04:1:010203", "-"):
            self.refused("relay-floods.trace", line, f"pairs 0 = {other}", "the pairs that are kept")
        line = "pairs 0 = 0a0a0a04:1:000002:11,0a0a0a04:1:000003:12"
        self.refused("relay-floods.trace", line, "pairs 0 = 0a0a0a04:1:000003:12,0a0a0a04:1:000002:11",
                     "the pairs that are kept")

    def test_30_with_a_free_place(self):
        line = "receive 0 9 400 20106a4b0a0408020a0a0a043c000009 1 0 = 0 0 1 2 20106a4b0a0408020a0a0a043c000009"
        self.refused("relay-floods.trace", line, line[:line.index("=")] + "= 0 0 30 0 -", "30 with a free place")

    def test_kept_with_all_places_held(self):
        line = "receive 0 9 400 20106a4b0a0408020a0a0a043c000040 8 0 = 0 0 30 0 -"
        other = line.replace("0 0 30 0 -", "0 0 1 2 20106a4b0a0408020a0a0a043c000040")
        self.refused("relay-floods.trace", line, other, "a pair kept with all places held")

    def test_no_and_not_asked(self):
        line = f"receive 0 9 400 {self.FLOOD} 6 0 = 0 0 1 8 {self.FLOOD}"
        self.refused("relay-floods.trace", line, line[:line.index("=")] + "= 0 0 0 0 -",
                     "no, and not asked, for a pair that is not held")
        line = "receive 0 1 400 200d1a43c00002010a0a000430 0 0 = 0 0 1 2 200d1a43c00002010a0a000430"
        for answer in ("0 0 0 0 -", "0 0 30 0 -"):
            self.refused("relay-queues.trace", line, line[:line.index("=")] + "= " + answer,
                         "30, or no and not asked, without a flood")

    def test_28_and_29(self):
        line = f"receive 0 9 400 {self.FLOOD} 5 0 = 29 0 0 0 -"
        self.refused("relay-floods.trace", line, line.replace("29", "1"), "29 exactly where the second is past")
        self.refused("relay-floods.trace", "sweep 13 0 = 29", "sweep 13 0 = 0", "29 exactly where the second is past")
        self.refused("relay-floods.trace", "sweep 14 0 = 0", "sweep 14 0 = 29", "29 exactly where the second is past")
        line = "receive 0 9 400 200d6a430a0408020a0a0a043c 0 0 = 28 0 0 0 -"
        self.refused("relay-floods.trace", line, line.replace("28 0 0", "0 0 11"), "28 exactly where a flood lacks")
        line = f"receive 0 9 400 {self.FLOOD} 6 0 = 0 0 0 0 -"
        self.refused("relay-floods.trace", line, line.replace("0 0 0 0 -", "28 0 0 0 -"),
                     "28 exactly where a flood lacks")

    def test_a_timestamp_is_carried(self):
        line = f"receive 0 9 400 {self.FLOOD} 6 0 = 0 0 1 8 {self.FLOOD}"
        self.refused("relay-floods.trace", line, line[:-1] + "4", "a header says something else")

    ASKED = "echo 0 20 100 20171a610a0a0a020a04090e0508008f93000100026869 0"
    REPLY = "202b1b610a04090e0a0a0a02405d550000922f000100020500000000000000000000000064000000006869"

    def test_another_reply(self):
        line = f"{self.ASKED} = 0 1 8 {self.REPLY}"
        for old, new, says in (("202b", "202a", "a length field that is not header and data"),
                               ("0a04090e0a", "0a0409100a", "a reply names another system"),
                               ("0a0a0a02", "0a0a0b02", "a reply names another system"),
                               ("405d55", "3f5d55", "a reply's header says something else"),
                               ("1b61", "5b61", "a reply's header says something else"),
                               ("0000922f", "0800922f", "a reply that is none"),
                               ("922f0001", "922f0002", "another identifier or sequence number"),
                               ("0002050000", "0002040000", "a reply tells another hop count, timestamp or rate"),
                               ("64000000006869", "64000000016869", "a reply tells another hop count, timestamp or rate"),
                               ("6869", "686a", "a reply has other data")):
            self.assertEqual(self.REPLY.count(old), 1, old)
            self.refused("relay-echo.trace", line, f"{self.ASKED} = 0 1 8 {self.REPLY.replace(old, new)}", says)

    def test_a_reply_to_what_gets_none(self):
        for octets, says in (("20161a410a0a0a020a04090e08008f93000100026869", "what gets none"),  # no hop count
                             ("20141aa1100a0a0a230508008f93000100026869", "what gets none"),  # no source
                             ("201b1a6b0a0a0a020a04090e3c0501020308008f93000100026869", "what gets none"),  # a flood
                             ("20171a610a0a0a020a04090e050d008a93000100026869", "what is no request"),
                             ("20171a610a0a0a020a04090e0508018f92000100026869", "what is no request"),
                             ("20141a610a0a0a020a04090e0508008f93000100", "what is no request")):
            status, output = ledger([f"echo 0 20 100 {octets} 0 = 0 1 8 {self.REPLY}"])
            self.assertEqual(status, 1, output)
            self.assertIn(f"a reply to {says}", output)

    def test_replies_are_counted_and_wait(self):
        line = f"{self.ASKED} = 0 1 8 {self.REPLY}"
        self.refused("relay-echo.trace", line, f"{self.ASKED} = 0 0 0 -", "an entry exactly where one waits")
        self.refused("relay-echo.trace", line, f"{self.ASKED} = 0 11 0 -", "npOutNoRoutes")
        self.refused("relay-echo.trace", line, f"{self.ASKED} = 0 15 0 -", "15 without a full port")
        self.refused("relay-echo.trace", line, f"{self.ASKED} = 0 1 9 {self.REPLY}",
                     "one port exactly where a reply is sent")

    BATCH = "batch 800 13,1 0,0 1,2 7,6 200d1a410a04090e0a0a0a040020 0"
    HEARD = "0 / 0 0 1 8 20101b610a04090e0a0a0a04405d6e / 29 0 0 0 -"

    def test_an_item_is_a_receipt(self):
        for answer, says in (("0 / 0 0 11 0 - / 29 0 0 0 -", "an entry exactly where one waits"),
                             ("0 / 0 0 1 8 20101b610a04091e0a0a0a04405d6e / 29 0 0 0 -", "names another system"),
                             ("0 / 0 0 1 8 20101b610a04090e0a0a0a04405d6e / 1 0 0 0 -", "29 exactly where"),
                             ("0 / 29 0 0 0 - / 29 0 0 0 -", "29 exactly where"),
                             ("27", "27 exactly where a batch does not fit: due 0, found 27"),
                             ("21", "an entry exactly where one waits")):
            self.refused("relay-batch.trace", f"{self.BATCH} = {self.HEARD}", f"{self.BATCH} = {answer}", says)

    def test_a_batch_that_does_not_fit(self):
        for words in ("800 13 0,0 1,2 7,6", "800 13,1 0 1,2 7,6", "800 13,1 0,0 1,2,3 7,6", "800 13,1 0,0 1,2 7",
                      "799 13,1 0,0 1,2 7,6"):
            line = f"batch {words} 200d1a410a04090e0a0a0a040020 0 = {self.HEARD}"
            self.assertIn("27 exactly where a batch does not fit: due 27, found 0", ledger([line])[1])
        line = f"batch 800 13,2 0,0 1,2 7,6 200d1a410a04090e0a0a0a040020 0 = {self.HEARD}"
        self.assertIn("27 exactly where a batch does not fit", ledger([line])[1])
        self.assertIn(f"no good answer: {line}", ledger([line])[1])

    def test_an_item_that_is_marked_or_missing(self):
        for answer in (self.HEARD.replace(" / 29", " ! / 29"), "0 / 29 0 0 0 -", "0", self.HEARD + " / 29 0 0 0 -"):
            line = f"{self.BATCH} = {answer}"
            self.assertIn(f"no good answer: {line}\n", ledger([line])[1])

    def test_a_mark(self):
        self.refused("relay-queues.trace", "waiting 1 0 = 32", "waiting 1 0 = 32 !", "no good answer")


class Whole(unittest.TestCase):
    """Every word of the trace form, its line cut short by a word."""

    LINES = ["read 200f5b610a04090e0a0a0a04401d6f = 0 15 15 5 0a04090e 0a0a0a04 1 0 - - - 64 0 - - 1 0",
             "read 20 = 1", "class 0a04090f = 2", "path 0a0409fe = 0", "checksum 0001f203f4f5f6f7 = 220d",
             "build 0 49 5 0a04090e 0a0a0a04 1 0 - - - 64 0 - - 1 0 = 17 -",
             "set_router 1 = 0", "set_port 0 0a0a0a02 ffffff00 8191 0 = 0", "set_route 0 0a040900 ffffff00 0 1 0 0 = 0",
             "set_group 0 e0000105 1 1 0 = 0", "set_path 0 0a000007 1 1 0 = 0",
             "receive 0 7 400 - 0 0 = 1 0 0 0 -", "take 0 0 = 18 0 0", "waiting 0 0 = 0",
             "search 0a04090e 0 = 0 24 0", "search 0a04080e 0 = -",
             "counters 0 = 1 1 0 0 0 0 0 0 0 0 0 0 0 0 0 0 0 0", "set_lifetime 5 = 0", "sweep 5 0 = 0",
             "pairs 0 = -", "clear_route 0 = 0", "clear_group 0 0 = 0", "clear_path 0 0 = 0",
             "set_echo_drop 0 = 0", "echo 0 7 8191 - 0 = 0 0 0 -", "read_echo 08008f93000100026869 = 0 8 1 2 6869",
             "batch 400 2 0 7 0 2000 0 = 0 / 1 0 0 0 -", "batch 0 - - - - - 0 = 0", "batch 0 1 0 7 0 20 0 = 27",
             "read_echo 0000922f000100020500000000000000000000000064000000006869 = 0 0 1 2 6869 5 0 "
             "0000000000000000 100 0", "read_echo 08 = 1", "build_echo 10 1 2 6869 = 0 08008f93000100026869"]
    COVERAGE = ("build/coverage", "headers=0", "builds=0", "addresses=0", "checksums=0", "messages=0", "histories=0")

    def test_whole_lines(self):
        self.assertNotIn("no good answer", ledger(self.LINES)[1])
        self.assertNotIn("no good answer", run(self.LINES, *self.COVERAGE)[1])

    def test_a_word_is_missing(self):
        for line in self.LINES:
            call, answer = line.split(" = ")
            shorts = {line.rsplit(" ", 1)[0], call.rsplit(" ", 1)[0] + " = " + answer, call}
            for short in shorts - {line}:
                for program in (("build/ledger",), self.COVERAGE):
                    status, output = run([short], *program)
                    self.assertEqual(status, 1, f"{program[0]}: {short}: {output}")
                    self.assertIn(f"no good answer: {short}\n", output)

    def test_lengths_that_no_header_has(self):
        for numbers in ("15 16", "16 15", "15 3", "15 4294967295"):
            line = self.LINES[0].replace("15 15", numbers)
            self.assertIn(f"no good answer: {line}\n", run([line], *self.COVERAGE)[1])


if __name__ == "__main__":
    unittest.main()
