#!/usr/bin/env python3
"""build/flood: random nets are flooded as is due, the same again with the same seed; each
wrong relay of tests/wrong_relay.c is found out by the check that is meant for it; and
settings out of range are refused.
"""
import os
import re
import subprocess
import unittest

from built import LINKED

ROOT = os.path.dirname(os.path.dirname(os.path.abspath(__file__)))
NET = re.compile(r"^net (\d+): nodes (\d+), routers (\d+), links (\d+), parts (\d+), orders (\d+)$", re.M)
FLOOD = re.compile(r"^   (.*): nodes reached (\d+), sent on (\d+), copies (\d+)$", re.M)


def run(*words, program="flood", **environment):
    """Status, standard output and standard error."""
    ended = subprocess.run([os.path.join(ROOT, LINKED, program), *words], capture_output=True, text=True, check=False,
                           env={**os.environ, **environment})
    return ended.returncode, ended.stdout, ended.stderr


class Flood(unittest.TestCase):
    def nets(self, *words):
        status, output, complaints = run(*words)
        self.assertEqual((status, complaints), (0, ""), output)
        floods = [list(map(int, found[1:])) for found in FLOOD.findall(output)]
        self.assertRegex(output, rf": {sum(copies for _, _, copies in floods)} copies, all as due\n$")
        return [list(map(int, found)) for found in NET.findall(output)], floods

    def test_nets_that_hang_together_and_nets_that_fall_apart(self):
        nets, floods = self.nets("seed=5", "nodes=200", "links=260", "nets=4")
        self.assertEqual([(net[0], net[1], net[3]) for net in nets], [(i, 200, 260) for i in range(1, 5)])
        parts = [net[4] for net in nets]
        self.assertEqual((parts[0], parts[2]), (1, 1))
        self.assertTrue(parts[1] > 1 and parts[3] > 1, parts)
        self.assertEqual(len(floods), 12)
        for net in range(4):
            new, repeated, again = floods[3 * net:3 * net + 3]
            self.assertEqual(new, again)
            self.assertLess(repeated[2], new[2])

    def test_a_tree_and_a_dense_net(self):
        """There are more copies for each node that is reached where there are more links."""
        nets, floods = self.nets("nodes=60", "links=59", "nets=1")
        self.assertEqual(nets[0][4], 1)
        self.assertLess(floods[0][2], 2 * floods[0][0])
        nets, floods = self.nets("nodes=60", "links=180", "nets=1")
        self.assertGreater(floods[0][2], 3 * floods[0][0])

    def test_nets_of_one_and_of_two(self):
        for words in (("nodes=1", "links=0"), ("nodes=1", "links=3"), ("nodes=2", "links=6"), ("nodes=2", "links=0"),
                      ("nodes=1", "links=0", "orders=32")):
            self.nets(*words)

    def test_the_same_seed_makes_the_same_run(self):
        words = "nodes=40", "links=50"
        self.assertEqual(run("seed=3", *words), run("seed=3", *words))
        self.assertNotEqual(run("seed=3", *words)[1], run("seed=4", *words)[1].replace("seed=4", "seed=3"))

    def test_wrong_relays_are_found_out(self):
        """By what the answer is, whom an order reached, how many copies there are, pairs and counters."""
        sends_on = r"node \d+, order \d+: the onward half: 1, and 0 is due"
        for wrong, says in (("forget", sends_on), ("keep", sends_on), ("fill", sends_on),
                            ("source", r"node \d+, order \d+: the onward half: 0, and 1 is due"),
                            ("lose", r"node \d+, order \d+: reached: 0, and 1 is due"),
                            ("repeat", r"copies, and no end of them: (\d+), and \d+ is due"),
                            ("idle", r"node \d+: pairs held: \d+, and 0 is due"),
                            ("eager", r"node \d+: pairs held: 0, and \d+ is due"),
                            ("miscount", r"node \d+: a counter: \d+, and \d+ is due")):
            status, output, complaints = run("nodes=60", "links=90", "orders=32", "nets=9", program="flood_wrong",
                                             WRONG_RELAY=wrong)
            self.assertEqual((status, complaints), (1, ""), wrong)
            self.assertRegex(output, rf"\nflood: FAILED: seed=1, net \d(?:, |: ){says}\n$")

    def test_without_a_fault_nothing_is_found(self):
        words = "nodes=60", "links=90"
        self.assertEqual(run(*words, program="flood_wrong", WRONG_RELAY=""), run(*words))

    def test_settings_out_of_range(self):
        for name, values, span in (("nodes", (0, 1001), "1 to 1000"), ("links", (901,), "0 to 900"),
                                   ("orders", (0, 33), "1 to 32"), ("nets", (0, 1001), "1 to 1000")):
            for value in values:
                says = f"flood: {name} is {span}, and not {value}\nflood: try --help\n"
                self.assertEqual(run(f"{name}={value}"), (2, "", says))


if __name__ == "__main__":
    unittest.main()
