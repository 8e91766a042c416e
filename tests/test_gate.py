#!/usr/bin/env python3
"""The gate and the release, on small trees with stand-ins for rt and for make."""
import os
import unittest
from unittest import mock

from tree import Tree

# make hands its TARGET on in the environment.
os.environ.pop("TARGET", None)

TARGETS = ("x86-64", "aarch64", "riscv64")
# For each machine that the gate runs on, the targets that are not its own.
OTHERS = {"x86_64": ("aarch64", "riscv64"), "aarch64": ("x86-64", "riscv64")}

# rt ci in small: two crates, and a wrong program beside the second; each prover uses up the
# processor for as many turns as it is told. A wrong program is tried in a folder of its own.
RT = """#!/bin/sh
[ "$*" = ci ] || exit 2
[ -z "$TMPDIR" ] || exit 3
mkdir -p rt-edit-1
rattle check --crate-name one src/lib.rt {proof}; echo 'rt: one proved'
(cd rt-edit-1 && rattle check --crate-name one src/lib.rt {own}) &
rattle check --crate-name two src/lib.rt {proof}; echo 'rt: two proved'
wait; echo 'rt: must-fail one/first.edit: refused, as it must be'
echo 'rt: ok{ok}; {done}'
{last}
"""
RATTLE = """#!/bin/bash
for turns; do :; done
exec -a rattle sh -c 'i=0; while [ $i -lt '$turns' ]; do i=$((i + 1)); done' "$@"
"""
ALL_DONE = "every proof and must-fail edit was done in this run"
KEPT = "done in this run: 1 of the 2 proofs (of crates and of their tests); the others are kept from earlier runs"


# What a gate on another machine is told of it.
MACHINE = "import os\nos.uname = lambda: os.uname_result(('Linux', 'here', '1', '1', '{}'))\n"
WORK = "i=0; while [ $i -lt {} ]; do i=$((i + 1)); done"
MAKE = "--no-print-directory FROM=build TARGET= "


class Gate(Tree):
    """scripts/gate with stand-ins for rt and its prover, for the libraries, for the tries and the look at
    their logs, for make and for os.uname."""

    def gate(self, last="echo 4 passed, 0 failed", logs="exit 0", make="exit 0", edits=1, machine="x86_64",
             libraries="exit 0", tries="exit 0", own=1, ok="", done=ALL_DONE, proof=300000):
        for script in ("gate", "costs.py"):
            self.copy_script(script)
        self.write("crates.txt", "# two crates\none:\ntwo: one\n")
        for target in TARGETS:
            self.write(f"build/{target}/libharpjuniper.a", "of an earlier run\n")
            self.write(f"build/{target}/objects/one.o", "of an earlier run\n")
        self.write("scripts/check-must-fail", f"#!/bin/sh\necho looked at the logs\n{logs}\n", 0o755)
        self.write("scripts/libraries", f"#!/bin/sh\necho libraries $*\n{libraries}\n", 0o755)
        work = WORK.format(edits)
        self.write("scripts/try-edits", f"#!/bin/sh\necho tried $*\n{work}\n{tries}\n", 0o755)
        rt = RT
        for name, value in (("proof", proof), ("own", own), ("ok", ok), ("done", done), ("last", last)):
            rt = rt.replace(f"{{{name}}}", str(value))
        self.write("bin/rt", rt, 0o755)
        self.write("bin/rattle", RATTLE, 0o755)
        self.write("bin/make", f'#!/bin/sh\necho "$@"; ls build\n{make}\n', 0o755)
        self.write("site/sitecustomize.py", MACHINE.format(machine))
        path = os.path.join(self.root, "bin") + os.pathsep + os.environ["PATH"]
        os.environ.pop("TMPDIR", None)
        with mock.patch.dict(os.environ, PYTHONPATH=os.path.join(self.root, "site")):
            status, output = self.run_script(os.path.join(self.root, "scripts/gate"), path=path)
        return status, output.strip().split("\n")

    def failed(self, says, **words):
        status, lines = self.gate(**words)
        self.assertEqual(status, 1, lines)
        self.assertTrue(lines[-1].startswith("gate: FAILED: ") and says in lines[-1], lines[-1])
        return lines

    def test_everything_passes(self):
        """In this order, with no archive of an earlier run; other files of build/ stay."""
        self.write("build/plain", "a program")
        for machine, others in OTHERS.items():
            status, lines = self.gate(machine=machine)
            self.assertEqual((status, lines[-1]), (0, "4 passed, 0 failed"), lines)
            self.assertEqual([line for line in lines if not line.startswith("cost:")][3:], [
                f"rt: ok; {ALL_DONE}", "libraries proved", "tried", "looked at the logs",
                MAKE + "PROVED=proved archives", "plain",
                MAKE + "exports released readme host-tests", "plain",
                MAKE + f"TARGET={others[0]} exports call-tests", "plain",
                MAKE + f"TARGET={others[1]} exports call-tests", "plain",
                MAKE + "compare-all", "plain",
                "4 passed, 0 failed"])
            page = os.path.join(self.root, "build/costs.md")
            with open(page, encoding="utf-8") as file:
                self.assertIn(f", {machine}, ", file.readline())
            os.remove(page)

    def rows(self, **words):
        """The last number of each row of the summary."""
        _, lines = self.gate(**words)
        return {line[6:36].strip(): float(line.split()[-1]) for line in lines if line.startswith("cost: ") and line[6] != " "
                and line.split()[-1].replace(".", "").isdigit() and " bar " not in line}

    def test_the_cost_is_split(self):
        """By what a prover works on, and not by when: rt's own tries run beside proofs."""
        turns = 1800000  # a prover is looked at ten times a second, and its last tenth is not seen
        rows = self.rows(edits=turns, own=turns, proof=turns)
        self.assertEqual(rows["one proof of everything"], 1.0)
        self.assertTrue(0.2 < rows["wrong programs"] < 0.9, rows)
        self.assertTrue(1.2 < rows["rt ci, with its own tries"] < 2.2, rows)

    def test_too_dear(self):
        lines = self.failed("cost over 3 proofs", edits=2400000)
        self.assertNotIn("4 passed, 0 failed", lines)

    def test_what_was_kept_is_compared_with_nothing(self):
        status, lines = self.gate(edits=2400000, done=KEPT)
        self.assertEqual((status, lines[-1]), (0, "4 passed, 0 failed"), lines)
        self.assertIn("cost: rt ci took proofs of an earlier run, so none of this is compared with a bar", lines)
        rows = self.rows(edits=2400000, done=KEPT)
        self.assertEqual(sorted(rows), ["host tests", "rt ci, with its own tries", "static libraries", "wrong programs"])

    def test_bad_edits(self):
        """They fail nothing in rt."""
        for bad in (1, 12):
            ok = f"; handles allowed: none; must-fail edits: 3 refused, {bad} bad"
            lines = self.failed(f"{bad} wrong programs are bad edits", ok=ok)
            self.assertNotIn("tried", lines)
        status, lines = self.gate(ok="; handles allowed: none; must-fail edits: 3 refused, 1 of them only by a limit")
        self.assertEqual((status, lines[-1]), (0, "4 passed, 0 failed"), lines)

    def test_rt_does_not_say_that_it_is_ok(self):
        rt = RT.replace("echo 'rt: ok", "echo 'rt: fine")
        with mock.patch(__name__ + ".RT", rt):
            self.failed("rt ci says no line 'rt: ok'")

    def test_a_library_fails(self):
        lines = self.failed("a library cannot be built", libraries="exit 1")
        self.assertNotIn("tried", lines)

    def test_the_tries_fail(self):
        lines = self.failed("a wrong program is not refused", tries="exit 1")
        self.assertNotIn("looked at the logs", lines)

    def test_rt_fails(self):
        lines = self.failed("rt ci ended with status 1", last="echo 3 passed, 1 failed; exit 1")
        self.assertNotIn("looked at the logs", lines)

    def test_the_logs_fail(self):
        lines = self.failed("a wrong program is not refused", logs="exit 1")
        self.assertNotIn("4 passed, 0 failed", lines)

    def test_the_host_tests_are_too_dear(self):
        """On every machine; those of the other targets and the comparison are of them."""
        for machine, words in (("x86_64", "TARGET=riscv64"), ("aarch64", "host-tests"), ("aarch64", "compare-all")):
            make = f'case "$*" in *{words}*) {WORK.format(1200000)} ;; esac'
            lines = self.failed("the host tests cost over 0.5 of a proof", make=make, machine=machine)
            self.assertNotIn("4 passed, 0 failed", lines)

    def test_make_fails(self):
        """What failed is said, and nothing is made after it."""
        says = ["an archive cannot be made", "a host test", "a test of the library for x86-64",
                "a test of the library for riscv64", "the comparison"]
        calls = ["archives", "host-tests", "TARGET=x86-64", "TARGET=riscv64", "compare-all"]
        for made, words in enumerate(calls, 1):
            make = f'case "$*" in *{words}*) exit 1 ;; esac'
            lines = self.failed(says[made - 1], make=make, machine="aarch64")
            self.assertNotIn("4 passed, 0 failed", lines)
            self.assertEqual(len([line for line in lines if line.startswith(MAKE)]), made, lines)

    def test_rt_says_something_else(self):
        for last in ("done", "0 passed, 0 failed", "4 passed, 1 failed"):
            self.failed("the last line of rt ci", last=f"echo {last}")


class Release(Tree):
    """scripts/release with a stand-in for rt."""

    HELD = ("RELEASE", "include/harpjuniper.h", *(f"{target}/libharpjuniper.a" for target in TARGETS))

    def setUp(self):
        super().setUp()
        self.copy_script("release")
        self.write("VERSION", "0.3.0\n")
        self.write("include/harpjuniper.h", "header\n")
        for target in TARGETS:
            self.write(f"build/{target}/libharpjuniper.a", f"archive for {target}\n")
        self.version("kit-1")
        self.assertEqual(self.release("renew"), (0, "release: dist/ is Harpjuniper 0.3.0, built with rt kit-1\n"))

    def version(self, name):
        self.write("bin/rt", f"#!/bin/sh\necho {name}\n", 0o755)

    def release(self, *words):
        path = os.path.join(self.root, "bin") + os.pathsep + os.environ["PATH"]
        return self.run_script(os.path.join(self.root, "scripts/release"), *words, path=path)

    def read(self, name):
        with open(os.path.join(self.root, name), encoding="utf-8") as file:
            return file.read()

    def refused(self, *says):
        status, output = self.release("check")
        self.assertEqual(status, 1, output)
        for words in (*says, "`make release` renews dist/"):
            self.assertIn(words, output)

    def test_what_was_built(self):
        self.assertEqual(self.release("check"), (0, "release: dist/ is what was built\n"))
        for target in TARGETS:
            self.assertEqual(self.read(f"dist/{target}/libharpjuniper.a"), f"archive for {target}\n")
        self.assertEqual(self.read("dist/include/harpjuniper.h"), "header\n")
        self.assertEqual([line.split()[1] for line in self.read("dist/SHA256SUMS").splitlines()], list(self.HELD))

    def test_another_archive(self):
        for target in TARGETS:
            self.write(f"build/{target}/libharpjuniper.a", f"archivE for {target}\n")
            self.refused("dist/ has another archive", f"build/{target}/libharpjuniper.a")
            self.write(f"build/{target}/libharpjuniper.a", f"archive for {target}\n")
        self.assertEqual(self.release("check")[0], 0)

    def test_another_archive_under_another_rt(self):
        for target in TARGETS:
            self.write(f"build/{target}/libharpjuniper.a", "archivE\n")
        self.version("kit-2")
        status, output = self.release("check")
        self.assertEqual(status, 0, output)
        self.assertIn("not compared", output)

    def test_an_archive_that_was_not_built(self):
        for target in TARGETS:
            self.setUp()
            os.remove(os.path.join(self.root, f"build/{target}/libharpjuniper.a"))
            self.refused("dist/ has another archive", f"build/{target}/libharpjuniper.a")
            self.assertNotEqual(self.release("renew")[0], 0)

    def test_another_header(self):
        self.write("include/harpjuniper.h", "headeR\n")
        self.refused("dist/ has another header")

    def test_another_version(self):
        self.write("VERSION", "0.4.0\n")
        self.refused("dist/ is of another version")

    def test_a_file_that_was_changed(self):
        for name in self.HELD:
            text = self.read(f"dist/{name}")
            self.write(f"dist/{name}", text.swapcase())
            self.refused("dist/ is not what its sums say")
            os.remove(os.path.join(self.root, "dist", name))
            self.refused("dist/ is not what its sums say")
            self.write(f"dist/{name}", text)
        self.assertEqual(self.release("check")[0], 0)

    def test_a_sum_that_is_not_there(self):
        lines = self.read("dist/SHA256SUMS").splitlines(keepends=True)
        self.assertEqual(len(lines), 5)
        for at in range(5):
            self.write("dist/SHA256SUMS", "".join(lines[:at] + lines[at + 1:]))
            self.refused("dist/ is not what its sums say")
        os.remove(os.path.join(self.root, "dist/SHA256SUMS"))
        self.refused("dist/ is not what its sums say")

    def test_another_word(self):
        for words in ((), ("chec",)):
            self.assertEqual(self.release(*words), (2, "usage: release check|renew\n"))


if __name__ == "__main__":
    unittest.main()
