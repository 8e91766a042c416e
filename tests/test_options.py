#!/usr/bin/env python3
"""What the host programs have alike. --help, --version and what is no option, said
alike by each that a user may run; the one table of calls, which the help and the
documents must not fall behind; and their files, no two of which may use each other
in a circle.
"""
import glob
import os
import re
import subprocess
import unittest

from built import LINKED

ROOT = os.path.dirname(os.path.dirname(os.path.abspath(__file__)))
PROGRAMS = [f"build/{name}" for name in ("plain", "generate", "coverage", "ledger")]
PROGRAMS += [f"{LINKED}/{name}" for name in ("replay", "bench", "soak", "flood", "rehearsal", "silent-leg")]
PROGRAMS.append("scripts/bench")
# Those that take no argument but the options.
WITHOUT_ARGUMENTS = (f"{LINKED}/replay", "build/plain", "build/ledger")

with open(os.path.join(ROOT, "VERSION"), encoding="ascii") as file:
    VERSION = file.read().strip()


def run(program, *words, calls=""):
    """Status, standard output and standard error."""
    ended = subprocess.run([os.path.join(ROOT, program), *words], input=calls, capture_output=True,
                           text=True, check=False)
    return ended.returncode, ended.stdout, ended.stderr


class Options(unittest.TestCase):
    def test_help(self):
        for program in PROGRAMS:
            status, output, errors = run(program, "--help")
            self.assertEqual((status, errors), (0, ""), program)
            self.assertIn(f"{os.path.basename(program)} [--help | --version]", output)

    def test_version(self):
        for program in PROGRAMS:
            says = f"{os.path.basename(program)} (Harpjuniper) {VERSION}\n"
            self.assertEqual(run(program, "--version"), (0, says, ""))

    def test_the_first_option_decides(self):
        for program in PROGRAMS:
            status, output, _ = run(program, "--version", "--nonsense")
            self.assertEqual((status, output.count("\n")), (0, 1), program)

    def test_an_unknown_option(self):
        for program in PROGRAMS:
            name = os.path.basename(program)
            for option in ("--nonsense", "-h", "-"):
                says = f"{name}: unknown option: {option}\n{name}: try --help\n"
                self.assertEqual(run(program, option), (2, "", says))

    def test_an_unexpected_argument(self):
        for program in WITHOUT_ARGUMENTS:
            name = os.path.basename(program)
            says = f"{name}: unexpected argument: trace\n{name}: try --help\n"
            self.assertEqual(run(program, "trace"), (2, "", says))

    def test_a_setting_that_is_not_understood(self):
        for program in ("build/generate", "build/coverage", f"{LINKED}/soak", f"{LINKED}/flood"):
            name = os.path.basename(program)
            for word in ("trace", "seeds=1", "seed=", "seed=x", "seed=-1", "seed=18446744073709551616"):
                says = f"{name}: not understood: {word}\n{name}: try --help\n"
                self.assertEqual(run(program, word), (2, "", says))

    def test_output_that_fails(self):
        runs = [(program, "--help") for program in PROGRAMS[:-1]]
        runs += [(f"{LINKED}/replay",), ("build/plain",), ("build/ledger",), (f"{LINKED}/bench", "stack"),
                 (f"{LINKED}/flood", "nodes=2", "links=1"), (f"{LINKED}/rehearsal", "scenarios/biocide.txt"),
                 (f"{LINKED}/silent-leg", "scenarios/biocide.txt", "ControlRoom", "0", "10.2.2.14"),
                 ("build/generate", "headers=1", "builds=0", "addresses=0", "checksums=0", "messages=0", "histories=0"),
                 ("build/coverage", "headers=0", "builds=0", "addresses=0", "checksums=0", "messages=0", "histories=0")]
        for program, *words in runs:
            with open("/dev/full", "w", encoding="ascii") as full:
                ended = subprocess.run([os.path.join(ROOT, program), *words], input="class 0a04090f = 2\n",
                                       stdout=full, stderr=subprocess.PIPE, cwd=ROOT, text=True, check=False)
            self.assertEqual(ended.returncode, 2, program)
            if program != "build/plain":
                self.assertTrue(ended.stderr.endswith(": the output failed\n"), program)

    def test_standard_input_is_read_without_options(self):
        for program in (f"{LINKED}/replay", "build/plain"):
            self.assertEqual(run(program, calls="class 0a04090f\n"), (0, "class 0a04090f = 2\n", ""))
            self.assertEqual(run(program, calls="--help\n"), (1, "? --help\n", ""))


def text_of(path):
    with open(os.path.join(ROOT, path), encoding="utf-8") as file:
        return file.read()


class Calls(unittest.TestCase):
    """host/shared/calls.def against what is written by hand."""

    TABLE = text_of("host/shared/calls.def")
    ROWS = re.findall(r"^(?:WORD|CALL)\((\w+), (\w+), \w+, \w+, \w+, \d, (\w+)", TABLE, re.M)
    WORDS = [word for _, _, word in ROWS if not word.isdigit()] + re.findall(r"^LINE\(\w+, (\w+)", TABLE, re.M)

    def test_each_exported_function_has_a_row(self):
        self.assertEqual(sorted(f"hj_{function}" for _, function, _ in self.ROWS), text_of("exports.txt").split())
        for name, function, _ in self.ROWS:
            self.assertTrue(function.upper().startswith(name), name)

    def test_each_word_is_told(self):
        places = {"replay --help": run(f"{LINKED}/replay", "--help")[1], "man/replay.1": text_of("man/replay.1"),
                  "docs/TRACE.md": text_of("docs/TRACE.md")}
        self.assertEqual(len(self.WORDS), 29)
        for place, text in places.items():
            for word in self.WORDS:
                self.assertRegex(text, rf"\b{word}\b", place)


class Files(unittest.TestCase):
    """NAME.c and NAME.h count as one. A call shows in the header that it needs."""

    @staticmethod
    def uses():
        """For each of them, those that it includes."""
        found = {}
        for path in glob.glob(os.path.join(ROOT, "host/*/*.[ch]")):
            folder, name = os.path.split(os.path.relpath(path, os.path.join(ROOT, "host")))
            uses = found.setdefault(os.path.join(folder, os.path.splitext(name)[0]), set())
            with open(path, encoding="ascii") as file:
                for header in re.findall(r'^#include "([\w/]+)\.h"', file.read(), re.M):
                    near = os.path.join(folder, header)
                    uses.add(near if os.path.exists(os.path.join(ROOT, "host", near + ".h")) else header)
        return {name: uses - {name} for name, uses in found.items()}

    def test_no_circle(self):
        left = self.uses()
        while True:
            free = [name for name, uses in left.items() if not uses & left.keys()]
            if not free:
                break
            for name in free:
                del left[name]
        self.assertEqual(left, {}, "these use each other in a circle, or what does")

    def test_no_program_uses_another(self):
        for name, uses in self.uses().items():
            for other in uses:
                folder, of = name.split("/")[0], other.split("/")[0]
                common = {"shared", "plain", "scenario"} if folder != "plain" else set()
                self.assertIn(of, {folder, "harpjuniper"} | common,
                              f"{name} uses {other}")


if __name__ == "__main__":
    unittest.main()
