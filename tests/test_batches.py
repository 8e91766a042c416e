#!/usr/bin/env python3
"""build/replay makes the items of each batch as single calls too. Here a library is put
behind it whose batches are wrong (soak_faults.c), and it has to mark what differs. And the
longest lines, which only batches need.
"""
import os
import re
import subprocess
import unittest

from built import LINKED

ROOT = os.path.dirname(os.path.dirname(os.path.abspath(__file__)))
MOST = 100000
# Of soak_faults.c, those by which a batch is not what single calls are: answers, output or
# words.
UNLIKE_SINGLES = {75: "two answers exchanged", 76: "an octet of the next item's output",
                  82: "an item of no octets passed over", 83: "every item with the first one's slot",
                  84: "and with its second", 85: "a refused item ends the batch"}
# Those by which it hears what is due 27.
HEARD = {68: "65 items", 69: "a sum that wraps", 70: "room that is one octet short"}
# Those by which the whole call has another number, which nothing but a stored answer shows.
OTHER_NUMBER = {86: "27 for 21", 88: "27 for no item"}
# Those by which it changes what it should not.
BEYOND = {71: "27 counted", 72: "27, a second accepted", 73: "27, an answer written", 74: "27, an output written",
          77: "an octet behind the last item's output", 78: "an answer behind the last", 80: "the slots changed",
          81: "the octets changed"}


def trace(name):
    with open(os.path.join(ROOT, "tests/traces", name), encoding="ascii") as file:
        return re.sub(r"[ \t]*#.*", "", file.read())


def run(program, calls, fault=0):
    ended = subprocess.run([os.path.join(ROOT, program)], input=calls, capture_output=True, text=True, check=False,
                           env={**os.environ, "SOAK_FAULT": str(fault)})
    return ended.returncode, ended.stdout


def marked(calls, fault):
    """The batches whose answer has a mark."""
    lines = run(f"{LINKED}/replay_faulty", calls, fault)[1].splitlines()
    return [line for line in lines if line.startswith("batch ") and "!" in line]


class Singles(unittest.TestCase):
    def test_without_a_fault(self):
        self.assertEqual(marked(trace("relay-batch.trace"), 0), [])

    def test_each_fault(self):
        for fault, what in {**UNLIKE_SINGLES, **HEARD, **BEYOND}.items():
            self.assertNotEqual(marked(trace("relay-batch.trace"), fault), [], what)

    def test_another_number(self):
        calls = trace("relay-batch.trace")
        good = run(f"{LINKED}/replay_faulty", calls)[1]
        for fault, what in OTHER_NUMBER.items():
            self.assertEqual(marked(calls, fault), [], what)
            self.assertNotEqual(run(f"{LINKED}/replay_faulty", calls, fault)[1], good, what)

    def test_where_the_mark_stands(self):
        """Behind the item whose answer is another, and at the end for words and what is around."""
        calls = ("new\nset_router 1\nset_port 0 0a0a0a02 ffffff00 100 0\nset_port 3 0a0a0b02 ffffff00 8191 0\n"
                 "set_route 1 0a04090e ffffffff 3 1 0 0\n"
                 f"batch 1300 13,0,13 0,0,0 1,2,3 7,7,7 {2 * '200d1a410a04090e0a0a0a0400'} 0\n")
        item = "0 0 1 8 200d1a410a04090e0a0a0a04"
        for fault, answer in ((0, f"0 / {item} / 1 0 0 0 - / {item}"),
                              (82, f"0 / {item} / 0 0 0 0 - ! / {item}"),
                              (83, f"0 / {item} / 1 0 0 0 - / {item} !"),
                              (77, f"0 / {item} / 1 0 0 0 - / {item} !")):
            line = run(f"{LINKED}/replay_faulty", calls, fault)[1].splitlines()[-1]
            self.assertEqual(line.split(" = ")[1], answer, fault)


class Lines(unittest.TestCase):
    @staticmethod
    def line(length):
        """A batch of one item, whose octets make the line so long."""
        before = "batch 400 13 0 10 0 200d1a410a04090e0a0a0a0400"
        behind = " 0"
        return before + "0" * (length - len(before) - len(behind)) + behind

    def test_the_longest(self):
        for program in (f"{LINKED}/replay", "build/plain"):
            line = self.line(MOST)
            self.assertEqual(len(line), MOST)
            self.assertEqual(run(program, line + "\n"), (0, f"{line} = 0 / 16 0 0 0 -\n"), program)

    def test_too_long(self):
        for program in (f"{LINKED}/replay", "build/plain"):
            line = self.line(MOST + 2)
            self.assertEqual(run(program, line + "\n"), (1, f"? {line}\n"), program)

    def test_as_many_numbers_as_a_line_holds(self):
        numbers = ",".join("0" * ((MOST - 20) // 2))
        line = f"batch 0 {numbers} - - - - 0"
        for program in (f"{LINKED}/replay", "build/plain"):
            self.assertEqual(run(program, line + "\n"), (0, f"{line} = 27\n"), program)


if __name__ == "__main__":
    unittest.main()
