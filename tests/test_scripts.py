#!/usr/bin/env python3
"""The scripts of the gate on small trees of their own: what they must accept,
and what they must refuse and say of it.

A tree is made in a temporary folder, since an .antt or .rt file of the
repository that no crate has would fail `rt ci`. Where a script calls rt or the
host programs, the tree has stand-ins for them.
"""
import os
import re
import shutil
import subprocess
import sys
import unittest
from unittest import mock

from tree import ROOT, Tree

sys.path.insert(0, os.path.join(ROOT, "scripts"))
import edits  # stand beside the scripts that use them
import kit

# make hands its TARGET on in the environment. A test that is about one says it itself.
os.environ.pop("TARGET", None)

TARGETS = ("x86-64", "aarch64", "riscv64")
MACHINES = ("x86_64", "aarch64")


def machine_of(target):
    """What Linux calls the machine of a target."""
    return target.replace("-", "_")


def tool_of(name, target, machine):
    """One of binutils or gcc for the target: this machine's own, or a cross one."""
    return name if machine_of(target) == machine else f"{machine_of(target)}-linux-gnu-{name}"


LAWS = """-- Laws of the classes.
use Prim.Native.Nat.{ℕ, _<_}

pub one-class : (a : ℕ) →
    classNumber (classOf a) < 7
one-class a = search needs

unfoldable pub twice {ℓ} : ℕ → ℕ
twice n = n + n

hidden : ℕ
hidden = 0

pub record Pair (n : ℕ) : Type 0 where
  pub first : ℕ
  -- and another
  pub second : ℕ

module Inside (n : ℕ) where
    within : n ≡ n
    within = refl
"""

RECORD = """```antt
pub record Pair (n : ℕ) : Type 0 where
  pub first : ℕ
  -- and another
  pub second : ℕ
```
"""

PAGE = """# Theorems

Each address has one class: `one-class`, in `crates/address/proofs/Laws.antt`.

```antt
pub one-class : (a : ℕ) → classNumber (classOf a) < 7
```

| Law | Theorem | File |
|---|---|---|
| twice | `twice` | `crates/address/proofs/Laws.antt` |
| within | `within` | `crates/address/proofs/Laws.antt` |

```antt
twice {ℓ} : ℕ → ℕ
```

```antt
within : n ≡ n
```

The file `crates/address/proofs/Laws.antt` has no more.
"""


SUMMARY = """# Promises

Each address has one class (`one-class`), by `crates/address/proofs/Laws.antt`; `make test` asks.
"""


class Promises(Tree):
    def check(self, page, summary=SUMMARY, *options):
        self.write("docs/THEOREMS.md", page)
        self.write("docs/PROMISES.md", summary)
        self.write("crates/address/proofs/Laws.antt", LAWS)
        self.write("crates/address/src/lib.rt", SOURCE)
        return self.run_script(os.path.join(ROOT, "scripts/check-promises"), *options, self.root)

    def refused(self, page, *says, summary=SUMMARY):
        status, output = self.check(page, summary)
        self.assertEqual(status, 1, output)
        for words in says:
            self.assertIn(words, output)

    def test_sections_and_rows_are_taken(self):
        status, output = self.check(PAGE)
        says = "promises: 3 statements are quoted as they stand, 1 of them named in docs/PROMISES.md, 0 wrong programs are there\n"
        self.assertEqual((status, output), (0, says))

    def test_another_statement(self):
        self.refused(PAGE.replace("< 7", "< 8"), "THEOREMS.md:3: one-class is quoted as", "< 8", "< 7")

    def test_a_statement_cut_short(self):
        self.refused(PAGE.replace(" → classNumber (classOf a) < 7", ""), "one-class is quoted as")

    def test_no_such_file(self):
        self.refused(PAGE.replace("Laws.antt`.", "Law.antt`."), "there is no crates/address/proofs/Law.antt")

    def test_no_such_theorem(self):
        self.refused(PAGE.replace("one-class", "two-class"), "declares no two-class")

    def test_a_private_declaration(self):
        page = "`hidden` in `crates/address/proofs/Laws.antt`\n```antt\nhidden : ℕ\n```\n"
        self.refused(page, "declares no hidden")

    def test_a_theorem_without_quotation(self):
        self.refused(PAGE.replace("```antt\nwithin : n ≡ n\n```", ""), "within is not quoted")

    def test_a_quotation_without_theorem(self):
        self.refused(PAGE + "```antt\nother : ℕ\n```\n", "belongs to no theorem")

    def test_wrong_programs(self):
        page = PAGE + "| a slip | `must-fail address/class_of_slips` |\n"
        self.refused(page, "there is no wrong program class_of_slips in crates/address/must-fail/")
        self.write("crates/address/must-fail/first.edit", "# class_of_slip: another\n")
        self.refused(page, "there is no wrong program class_of_slips")
        self.write("crates/address/must-fail/second.edit", "# path_form_slips: one\n\n# class_of_slips: two\n")
        self.write("docs/HOWTO.md", "As in `must-fail address/path_form_slip`.\n")
        self.refused(page, "docs/HOWTO.md:1: there is no wrong program path_form_slip in crates/address/must-fail/")
        self.write("docs/HOWTO.md", "As in `must-fail address/path_form_slips`.\n")
        status, output = self.check(page)
        self.assertEqual(status, 0, output)
        self.assertIn("2 wrong programs", output)

    def test_a_page_without_theorems(self):
        self.refused("# Theorems\n", "docs/THEOREMS.md: names no theorem with its file")

    def test_a_name_that_is_not_quoted(self):
        summary = SUMMARY + "And `twice`, by `hidden` and `hj_twice`.\n"
        self.refused(PAGE, "PROMISES.md:4: docs/THEOREMS.md quotes no hidden", "PROMISES.md:4: docs/THEOREMS.md quotes no hj_twice", summary=summary)

    def test_a_record_is_quoted_whole(self):
        page = PAGE + "`Pair`, in `crates/address/proofs/Laws.antt`\n\n" + RECORD
        status, output = self.check(page)
        self.assertEqual(status, 0, output)
        self.assertIn("promises: 4 statements", output)
        self.refused(page.replace("  pub second : ℕ\n", ""), "Pair is quoted as", "pub first : ℕ -- and another pub second : ℕ")
        self.refused(page.replace("  -- and another\n", ""), "Pair is quoted as")

    def test_a_summary_that_quotes(self):
        summary = SUMMARY + "\nBoth: `Pair`, in `crates/address/proofs/Laws.antt`.\n\n" + RECORD
        status, output = self.check(PAGE, summary)
        self.assertEqual(status, 0, output)
        self.assertIn("promises: 4 statements are quoted as they stand, 2 of them named", output)
        wrong = summary.replace("pub second : ℕ", "pub second : ℤ")
        self.refused(PAGE, "docs/PROMISES.md:5: Pair is quoted as", summary=wrong)
        status, output = self.check(PAGE, wrong, "--renew")
        self.assertEqual(status, 0, output)
        self.assertIn("promises: 1 quotations are written anew\n", output)
        self.assertEqual(self.read("docs/PROMISES.md"), summary)
        self.refused(PAGE, "docs/PROMISES.md:10: a quotation that belongs to no theorem ends here", summary=SUMMARY + "\n" + RECORD)

    def test_a_summary_without_theorems(self):
        self.refused(PAGE, "docs/PROMISES.md: names no theorem", summary="# Promises\n")

    def test_no_page(self):
        status, output = self.run_script(os.path.join(ROOT, "scripts/check-promises"), self.root)
        self.assertEqual((status, output), (1, "promises: there is no docs/THEOREMS.md\n"))
        self.write("docs/THEOREMS.md", PAGE)
        status, output = self.run_script(os.path.join(ROOT, "scripts/check-promises"), self.root)
        self.assertEqual((status, output), (1, "promises: there is no docs/PROMISES.md\n"))

    def read(self, name):
        with open(os.path.join(self.root, name), encoding="utf-8") as file:
            return file.read()

    def test_renewing_what_stands_changes_nothing(self):
        status, output = self.check(PAGE, SUMMARY, "--renew")
        self.assertEqual(status, 0, output)
        self.assertIn("promises: 0 quotations are written anew\n", output)
        self.assertEqual(self.read("docs/THEOREMS.md"), PAGE)

    def test_renewing_a_changed_statement(self):
        page = PAGE.replace("< 7", "< 8").replace("within : n ≡ n", "within : n ≡ 0\n    → n ≡ n")
        page += "`first`, in `crates/address/src/lib.rt`\n\n```rust\npub fn first(self) -> u16\n```\n"
        status, output = self.check(page, SUMMARY, "--renew")
        self.assertEqual(status, 0, output)
        self.assertIn("promises: 3 quotations are written anew\n", output)
        new = self.read("docs/THEOREMS.md")
        self.assertIn("```antt\npub one-class : (a : ℕ) →\n    classNumber (classOf a) < 7\n```\n", new)
        self.assertIn("```antt\ntwice {ℓ} : ℕ → ℕ\n```\n", new)
        self.assertIn("```antt\nwithin : n ≡ n\n```\n", new)
        self.assertIn("```rust\npub fn first(self) -> u8\n    ensures { λ r. ⌜ r ≡ self .0 ⌝ }\n```\n", new)

    def test_renewing_finds_the_other_faults(self):
        page = PAGE.replace("< 7", "< 8").replace("`within`", "`without`")
        status, output = self.check(page, SUMMARY, "--renew")
        self.assertEqual(status, 1, output)
        self.assertIn("promises: 1 quotations are written anew", output)
        self.assertIn("declares no without", output)
        self.assertIn("belongs to no theorem", output)


SOURCE = """// A brace { in a comment.
ghost use lib.ListN.{length};

pub fn half(x: [u8; 2]) -> u8
    requires within { ⌜ x < 9 ⌝ }
    ensures { λ r. ⌜ r ≡ halfOf x ⌝ }
    ensures { λ r. ⌜ record { 0 = r } ≡ halves (record { 0 = x }) ⌝ }
{
    let brace = b'}';
    if brace == 1 { x / 2 } else { 0 }
}

impl Pair {
    pub fn first(self) -> u8
        ensures { λ r. ⌜ r ≡ self .0 ⌝ }
    {
        self.0
    }
}

pub fn whole(x: [u8; 2]) -> u8
    ensures { λ r. ⌜ r ≡ wholeOf x ⌝ }
{
    half(x) * 2
}
"""

PROOF = """returns : tie.Need-returns
returns c = search needs

small : (c : tie.In-loop) → c .i < 8
small c = omega arith

pub half-spec : {M : Type 1} → statement M
half-spec = tie.close (tie.spec returns)
"""

FAILS = "`returns`: `omega`: the goal does not follow from what it read"
FOLLOWS = "`half-spec`: `returns` was not admitted (it has holes or undetermined implicits, or was rejected), so ..."


class MustFail(Tree):
    HALF = ("half_not_the_half: a third is given", "x / 2", "x / 3")
    FIRST = ("first_gives_the_second: the second is given", "        self.0", "        self.1")
    WHOLE = ("whole_of_nothing: the whole is left out", "half(x) * 2", "half(x) * 0")

    FAILED = "fn pair::half: not proved"
    FIRST_FAILED = "fn pair::Pair::first: no proof: expected `first-spec` in Proof.antt; `search` does not close `returns`"
    WHOLE_FOLLOWS = "fn pair::whole: no proof: expected `whole-spec` in Proof.antt; it calls `pair::half`, which is not proved"
    WHOLE_FAILED = WHOLE_FOLLOWS.replace("; it", "; `search` does not close `mul-result`, `returns`; it")

    def setUp(self):
        super().setUp()
        self.write("crates.txt", "# one\npair:\n")
        self.write("crates/pair/src/lib.rt", SOURCE)
        self.write("crates/pair/proofs/half/Proof.antt", PROOF)
        self.write("must-fail.txt", "# those that C calls\npair::half  # twice\n")

    def edit(self, label, *changes, errors=(), lines=(FAILED,), text=None, proof="Proof"):
        """An edit file, and the log that scripts/try-edits left of it."""
        heads = [f"# {head}\nfile: src/lib.rt\nold: {old}\nnew: {new}\n" for head, old, new in changes]
        path = f"crates/pair/must-fail/{label}.edit"
        self.write(path, text or "\n".join(heads))
        where = f"./proofs/half/{proof}.antt"
        log = [f"{where}:2:9: error: {error}" for error in errors] + list(lines) + ["logic=not-proved"]
        stamp = edits.stamp(self.root, kit.crates(self.root)[0], os.path.join(self.root, path))
        self.write(f"build/must-fail/pair/{label}.log", "\n".join([stamp, *log]) + "\n")

    def half(self, new="x / 3", name="half_not_the_half", errors=(FAILS, FOLLOWS), **more):
        """An edit file with one wrong program of half."""
        self.edit("first", (f"{name}: not the half", "x / 2", new), errors=errors, **more)

    def check(self):
        return self.run_script(os.path.join(ROOT, "scripts/check-must-fail"), self.root)

    def refused(self, *says):
        """Refuses first.edit, and takes another."""
        self.edit("second", ("half_of_another: a quarter is given", "x / 2", "x / 4"), errors=(FAILS, FOLLOWS))
        status, output = self.check()
        self.assertEqual(status, 1, output)
        for words in says:
            self.assertIn(words, output)
        self.assertIn("pair::half has 1 good wrong programs, and needs 2", output)

    def test_two_files(self):
        follows = "fn pair::both: not proved; it calls `pair::half` and `pair::whole`, which are not proved"
        first = (self.FIRST_FAILED, self.FAILED, self.WHOLE_FOLLOWS, follows)
        self.edit("first", self.HALF, self.FIRST, errors=(FAILS, FOLLOWS), lines=first)
        made = "fn pair::half: no proof: expected `half-spec` in Proof.antt; `search` does not close `div`, `returns`"
        self.edit("second", ("half_of_another: a quarter", "x / 2", "x / 4"), lines=(made,))
        status, output = self.check()
        self.assertEqual(status, 0, output)
        self.assertIn("must-fail pair/half_not_the_half: pair::half fails at returns\n", output)
        self.assertIn("must-fail pair/first_gives_the_second: pair::Pair::first fails at returns\n", output)
        self.assertIn("must-fail pair/half_of_another: pair::half fails at div, returns\n", output)
        self.assertIn("must-fail: 3 wrong programs in 2 files, each refused", output)

    def test_a_caller_fails_by_itself(self):
        self.edit("first", self.HALF, self.WHOLE, errors=(FAILS,), lines=(self.FAILED, self.WHOLE_FAILED))
        self.assertIn("must-fail pair/whole_of_nothing: pair::whole fails at mul-result, returns\n", self.check()[1])

    def test_a_masked_function(self):
        self.edit("first", self.HALF, self.WHOLE, errors=(FAILS,), lines=(self.FAILED, self.WHOLE_FOLLOWS))
        self.refused("first.edit: pair::whole is masked: it calls pair::half, which fails here too")

    def test_one_of_two_does_not_fail(self):
        self.edit("first", self.HALF, self.FIRST, errors=(FAILS,), lines=(self.FAILED, "fn pair::Pair::first: proved"))
        self.refused("pair::Pair::first is changed, and does not fail")

    def test_two_changes_of_one_function(self):
        brace = ("half_by_another_brace: another brace", "brace == 1", "brace == 2")
        self.edit("first", self.HALF, brace, errors=(FAILS,))
        self.refused("half_not_the_half and half_by_another_brace both change pair::half")

    def test_a_name_twice(self):
        self.half()
        self.edit("second", self.HALF, errors=(FAILS,))
        self.assertIn("pair/half_not_the_half is the name of 2 wrong programs", self.check()[1])

    def test_a_function_that_is_not_tried(self):
        self.write("must-fail.txt", "pair::whole\n")
        self.half()
        self.assertIn("pair::whole has 0 good wrong programs", self.check()[1])

    def test_an_empty_list(self):
        self.write("must-fail.txt", "# none yet\n")
        self.half()
        self.assertIn("lists no function", self.check()[1])

    def test_no_comment(self):
        for comment in ("", "#\n", "# not the half\n", "# half_not_the_half a third\n"):
            with self.subTest(comment=comment):
                self.half(text=comment + "file: src/lib.rt\nold: x / 2\nnew: x / 3\n")
                self.refused("a change has no comment `# NAME: what is wrong` of its own")

    def test_no_words(self):
        self.half(text="# half_not_the_half:\nfile: src/lib.rt\nold: x / 2\nnew: x / 3\n")
        self.refused("half_not_the_half has no comment")

    def test_one_comment_for_two_changes(self):
        text = "# half_not_the_half: a third\nfile: src/lib.rt\nold: x / 2\nnew: x / 3\nold:         self.0\nnew: self.1\n"
        self.half(text=text)
        self.refused("a change has no comment")

    def test_a_name_of_another_function(self):
        self.half(name="whole_not_the_half")
        self.refused("whole_not_the_half changes pair::half: its name is to begin with half_")

    def test_no_change(self):
        self.half(text="# half_not_the_half: a third\n")
        self.refused("it has no 'old:' and 'new:' pair")

    def test_a_change_that_is_none(self):
        self.half(new="x / 2")
        self.refused("it leaves 'x / 2' as it is")

    def promise_changed(self, old, new):
        self.edit("first", ("half_by_promise: another promise", old, new), errors=(FAILS,))
        self.refused("stands in the body of no function")

    def test_a_change_of_the_promise(self):
        self.promise_changed("halfOf x", "halfOf 2")

    def test_a_change_of_a_record_in_the_promise(self):
        self.promise_changed("record { 0 = r }", "record { 0 = 0 }")

    def test_a_change_within_a_record_in_the_promise(self):
        self.promise_changed("0 = r", "0 = 0")

    def test_a_change_of_a_definition(self):
        self.half(text="# half_by_definition: less\nfile: specs/Half.antt\nold: x / 2\nnew: x / 3\n")
        self.refused("it changes specs/Half.antt, and not src/")

    def test_a_text_that_stands_twice(self):
        self.edit("first", ("half_of_y: another", "x", "y"), errors=(FAILS,))
        self.refused("times in src/lib.rt")

    def test_what_adds_needs(self):
        brought = {
            "x / 2 + 1": "a sum, a difference or a product",
            "x / brace": "a division or a shift by what is no number",
            "x as u8": "a change of kind",
            "x[0]": "an index or a part of a slice",
            "if x == 0 { 1 } else { 2 }": "a branch or a return",
            "0; 1": "a statement",
            "whole(x)": "a call of whole",
        }
        for new, what in brought.items():
            with self.subTest(new=new):
                self.half(new=new)
                self.refused(f"'{new}' adds {what}: that brings needs of its own")

    def test_what_adds_none(self):
        for new in ("x % 2", "x / HALVES", "x >> 2", "!x ^ 7 & x", "u8::count_ones(x)", "[7; 2]", "Pair(x)"):
            with self.subTest(new=new):
                self.half(new=new)
                self.assertIn("must-fail pair/half_not_the_half: pair::half fails at returns", self.check()[1])

    def test_a_need_that_is_gone(self):
        gone = "`returns`: `tie.Need-returns`: module `Tie` has no `Need-returns` that can be named from here"
        self.half(errors=(FAILS, gone))
        self.refused("the proof of pair::half no longer fits, at returns")

    def test_needs_that_have_changed(self):
        self.half(errors=(FAILS, "`half-spec`: the two types first differ"))
        self.refused("the proof of pair::half no longer fits, at half-spec")

    def test_a_lemma_alone(self):
        self.half(errors=("`small`: `omega`: the goal does not follow", FOLLOWS))
        self.refused("no need of pair::half fails")

    def test_another_function_fails_too(self):
        self.half(lines=(self.FAILED, "fn pair::whole: not proved"))
        self.refused("pair::whole fails too, and is not changed")

    def test_a_caller_fails_too(self):
        self.half(lines=(self.FAILED, self.WHOLE_FAILED))
        self.refused("pair::whole fails too, and is not changed")

    def test_an_error_elsewhere(self):
        self.edit("first", self.FIRST, errors=(FAILS,), lines=(self.FIRST_FAILED,))
        self.refused("an error stands in proofs/half/Proof.antt")

    def test_another_function_fails_instead(self):
        self.half(lines=("fn pair::half: proved", "fn pair::whole: not proved"))
        self.refused("pair::half is changed, and does not fail")

    def test_no_log(self):
        self.half()
        os.remove(os.path.join(self.root, "build/must-fail/pair/first.log"))
        self.refused("there is no log")

    def test_the_log_of_another_edit(self):
        self.half()
        self.write("crates/pair/must-fail/first.edit", "# half_not_the_half: a third\nfile: src/lib.rt\nold: x / 2\nnew: x / 3\n")
        self.refused("its log is of other code, or of another edit")

    def test_the_log_of_other_code(self):
        """Of the crate itself, of its proofs, and of a crate that it stands on."""
        self.write("crates.txt", "low:\npair: low\n")
        self.write("crates/low/src/lib.rt", "// Nothing.\n")
        for name, text in (("pair/src/lib.rt", SOURCE), ("pair/proofs/half/Proof.antt", PROOF), ("low/src/lib.rt", "// Nothing.\n")):
            self.half()
            self.write(f"crates/{name}", f"{text}// More.\n")
            self.refused("first.edit: its log is of other code, or of another edit")
            self.write(f"crates/{name}", text)

    # ---- Answers, as today's prover has them

    ANSWERS = """-- The answers.
use Rattle.pair.proofs.half.Goals as goal

small : (n : ℕ) → n < n + 1
small n = omega arith

pub returns-then-brace-eq1 : goal.returns-then-brace-eq1
returns-then-brace-eq1 c = search rules

pub returns : (w : ℕ) → Goals.returns w
returns c = search rules
"""
    OPEN = "note: src/lib.rt:9:5: it is not proved that what the function ensures holds when it returns (`{}`)"

    def answers(self):
        self.write("crates/pair/proofs/half/Answers.antt", self.ANSWERS)

    def test_an_answer(self):
        self.answers()
        for need in ("returns-then-brace-eq1", "returns"):
            self.half(errors=(f"`{need}`: `omega`: the goal does not follow",), proof="Answers")
            self.assertIn(f"must-fail pair/half_not_the_half: pair::half fails at {need}\n", self.check()[1])

    def test_an_answer_that_says_no_type(self):
        self.answers()
        self.write("crates/pair/proofs/half/Answers.antt", "returns c = search rules\n")
        self.half(errors=("`returns`: `search`: no proof",), proof="Answers")
        self.assertIn("must-fail pair/half_not_the_half: pair::half fails at returns\n", self.check()[1])

    def test_a_lemma_among_answers(self):
        self.answers()
        follows = "3 declarations that depend on `small`, which was not admitted, were not checked: returns"
        self.half(errors=("`small`: `omega`: the goal does not follow", follows), proof="Answers")
        self.refused("no need of pair::half fails")

    def test_a_need_without_an_answer(self):
        """The notes above the line of a function, or of a type, are on its needs alone."""
        self.answers()
        self.half(errors=(), lines=(self.OPEN.format("returns-then-brace-eq2"), self.FAILED))
        self.assertIn("must-fail pair/half_not_the_half: pair::half fails at returns-then-brace-eq2\n", self.check()[1])
        for other in ("struct pair::Pair: proved", "fn pair::other: proved"):
            self.half(errors=(), lines=(self.OPEN.format("returns"), other, self.FAILED))
            self.refused("no need of pair::half fails")

    def test_a_need_that_search_does_not_prove(self):
        made = "fn pair::half: no proof: expected answers in ./proofs/half/Answers.antt; `search` did not prove `div`, `returns`"
        self.half(errors=(), lines=(self.OPEN.format("returns"), made))
        self.assertIn("must-fail pair/half_not_the_half: pair::half fails at returns, div\n", self.check()[1])

    def test_an_answer_to_a_need_that_is_gone(self):
        """It shows nothing, whatever else does."""
        self.answers()
        for gone in ("`returns`: `goal.returns`: module `Rattle.pair.proofs.half.Goals` has no `returns` that can be named from here",
                     "`returns`: record `Rattle.pair.proofs.half.Lts.Else1` has no field `if-brace-eq1` (nearest: .if-brace-eq2)"):
            self.half(errors=(FAILS, gone), lines=(self.OPEN.format("returns-then-brace-eq2"), self.FAILED), proof="Answers")
            self.refused("the proof of pair::half no longer fits, at returns")

    def test_a_caller_without_answers(self):
        """Which only follows from what it calls."""
        for calls in ("`pair::half`, which is", "`pair::half` and `pair::first`, which are"):
            self.half(lines=(self.FAILED, f"fn pair::whole: no proof: it calls {calls} not proved"))
            self.assertIn("must-fail pair/half_not_the_half: pair::half fails at returns\n", self.check()[1])


class TryEdits(Tree):
    """scripts/try-edits with a stand-in for rt and its prover."""

    EDIT = "# half_not_the_half: a third\nfile: src/lib.rt\nold: x / 2\nnew: x / 3\n"
    GONE = ("./proofs/half/Answers.antt:{}:9: error: `returns`: record `Rattle.pair.proofs.half.Lts.Else1` has no field `if-a`\n"
            "logic=not-proved")

    def setUp(self):
        super().setUp()
        for script in ("try-edits", "edits.py", "kit.py"):
            self.copy_script(script)
        self.write("crates.txt", "low:\nuser: pair\npair: low\nfree staticlib: pair\n")
        for crate in ("low", "pair", "user"):
            self.write(f"crates/{crate}/src/lib.rt", SOURCE)
            self.write(f"crates/{crate}/must-fail/first.edit", self.EDIT)
        self.write("crates/pair/proofs/half/Answers.antt", MustFail.ANSWERS)
        self.write("bin/rt", f"#!/bin/sh\n[ $1 = doc ] && echo {self.root}/kit/START-HERE.md\n", 0o755)
        self.prover("echo logic=not-proved; exit 1")

    def prover(self, body):
        self.write("kit/bin/rattle", f'#!/bin/sh\necho run >>{self.root}/runs\necho "$*"\n{body}\n', 0o755)

    def tried(self, *words, **variables):
        path = os.path.join(self.root, "bin") + os.pathsep + os.environ["PATH"]
        with mock.patch.dict(os.environ, variables):
            return self.run_script(os.path.join(self.root, "scripts/try-edits"), *words, path=path)

    def runs(self):
        """How often the prover was called since this was last asked."""
        path = os.path.join(self.root, "runs")
        if not os.path.exists(path):
            return 0
        with open(path, encoding="utf-8") as file:
            count = len(file.readlines())
        os.remove(path)
        return count

    def log(self, crate="pair"):
        with open(os.path.join(self.root, f"build/must-fail/{crate}/first.log"), encoding="utf-8") as file:
            return file.read().splitlines()

    def test_each_is_tried_once(self):
        says = "try-edits: 3 files of wrong programs, each refused\n"
        self.assertEqual((self.tried(), self.runs()), ((0, says), 3))
        self.assertEqual((self.tried(), self.runs()), ((0, says), 0))
        self.write("crates/low/src/lib.rt", f"{SOURCE}// More.\n")
        self.assertEqual((self.tried(RT_JOBS="1"), self.runs()), ((0, says), 3))
        self.write("crates/pair/must-fail/first.edit", self.EDIT + "# More.\n")
        self.assertEqual((self.tried(), self.runs()), ((0, says), 1))
        path = edits.stamp(self.root, kit.crates(self.root)[0], f"{self.root}/crates/pair/must-fail/first.edit")
        self.assertEqual((self.log()[0], self.log()[-1]), (path, "logic=not-proved"))

    def test_some_crates(self):
        self.assertEqual(self.tried("pair", "low"), (0, "try-edits: 2 files of wrong programs, each refused\n"))
        self.assertEqual(self.tried("pear"), (1, "try-edits: there is no crate pear\n"))

    def test_what_the_prover_is_given(self):
        """The edited crate, in a folder of its own, and the libraries below it."""
        self.prover("cat src/lib.rt proofs/half/Answers.antt; echo logic=not-proved; exit 1")
        self.tried("pair")
        kits, built = f"{self.root}/kit", f"{self.root}/crates/low/out/rlib"
        words = (f"check --crate-name pair src/lib.rt --extern std={kits}/rlibs/std.rlib -L dependency={kits}/rlibs "
                 f"--extern low={built}/low.rlib -L dependency={built} --antt-project {kits}/rattle/logic/antt-project.json "
                 f"--logic-built {kits}/logic_built --links pair= --jobs 1 --incremental ")
        log = self.log()
        self.assertTrue(log[1].startswith(words), log[1])
        text = SOURCE.replace("x / 2", "x / 3") + MustFail.ANSWERS
        self.assertEqual("\n".join(log[2:-1]) + "\n", text)
        with open(os.path.join(self.root, "crates/pair/src/lib.rt"), encoding="utf-8") as file:
            self.assertEqual(file.read(), SOURCE)

    def test_what_is_proved_at_one_edit_is_kept_for_the_next(self):
        """In a folder of the crate, in which one prover works at a time, and which is gone at the end."""
        self.write("crates/pair/must-fail/second.edit", self.EDIT.replace("new: x / 3", "new: x / 4"))
        self.prover("for kept; do :; done\necho holds $(ls $kept)\nmkdir $kept/busy || echo together\nsleep 0.2\nrmdir $kept/busy\n"
                    "touch $kept/by-$(sed -n 's|.*x / ||p' src/lib.rt)\necho logic=not-proved; exit 1")
        self.assertEqual(self.tried(RT_JOBS="4"), (0, "try-edits: 4 files of wrong programs, each refused\n"))
        holds, folders = {}, set()
        for crate, label in (("low", "first"), ("pair", "first"), ("pair", "second"), ("user", "first")):
            with open(os.path.join(self.root, f"build/must-fail/{crate}/{label}.log"), encoding="utf-8") as file:
                log = file.read()
            self.assertNotIn("together", log)
            holds[crate, label] = re.search(r"^holds(.*)$", log, re.M)[1]
            folders.add(re.search(r" --incremental (\S+)", log)[1])
        self.assertEqual(holds, {("low", "first"): "", ("pair", "first"): "", ("pair", "second"): " by-3", ("user", "first"): ""})
        self.assertEqual((len(folders), [folder for folder in folders if os.path.exists(folder)]), (3, []))

    def test_what_it_stands_on_is_below(self):
        self.tried("user")
        words = self.log("user")[1]
        rlib = f"{self.root}/crates/{{}}/out/rlib"
        self.assertIn("--extern pair=" + rlib.format("pair") + "/pair.rlib -L dependency=" + rlib.format("low") +
                      " -L dependency=" + rlib.format("pair") + " --antt", words)

    def leaves_out(self, answers, line):
        """The answer that this line is in does not fit: it alone is left out, and only in the copy."""
        self.write("crates/pair/proofs/half/Answers.antt", answers)
        at = answers.splitlines().index(line) + 1
        self.prover(f"cat proofs/half/Answers.antt\ngrep -q brace-eq1 proofs/half/Answers.antt && echo '{self.GONE.format(at)}' || "
                    "echo logic=not-proved; exit 1")
        self.assertEqual(self.tried("pair")[0], 0)
        self.assertEqual(self.runs(), 2)
        left = [line for line in MustFail.ANSWERS.splitlines() if "brace-eq1" not in line]
        self.assertEqual([line for line in self.log()[2:-1] if line], [line for line in left if line])
        with open(os.path.join(self.root, "crates/pair/proofs/half/Answers.antt"), encoding="utf-8") as file:
            self.assertEqual(file.read(), answers)

    def test_an_answer_that_does_not_fit_is_left_out(self):
        self.leaves_out(MustFail.ANSWERS, "returns-then-brace-eq1 c = search rules")

    def test_an_answer_over_several_lines_is_left_out(self):
        answers = MustFail.ANSWERS.replace("brace-eq1 c = search rules", "brace-eq1 c = simp (\n  one,\n  two,\n)")
        self.assertNotEqual(answers, MustFail.ANSWERS)
        self.leaves_out(answers, "  two,")

    def test_an_answer_is_left_out_with_what_it_unfolds(self):
        answers = MustFail.ANSWERS.replace("returns-then-brace-eq1 c =", "unfolding half_of\nreturns-then-brace-eq1 c =")
        self.assertNotEqual(answers, MustFail.ANSWERS)
        self.leaves_out(answers, "returns-then-brace-eq1 c = search rules")

    def test_answers_that_fit_nowhere(self):
        """Where it is no answer that does not fit, all of the file is left out."""
        self.prover(f"[ ! -f proofs/half/Answers.antt ] || echo '{self.GONE.format(2)}'; echo logic=not-proved; exit 1")
        self.assertEqual(self.tried("pair")[0], 0)
        self.assertEqual((self.runs(), len(self.log())), (2, 3))

    def test_an_answer_that_does_not_fit_elsewhere(self):
        """Of a function that is not changed, or in another file: that stays."""
        for says in (self.GONE.format(8).replace("half/A", "whole/A"), self.GONE.format(8).replace("Answers", "Invariants")):
            self.setUp()
            self.prover(f"echo '{says}'; exit 1")
            self.assertEqual(self.tried("pair")[0], 0)
            self.assertEqual(self.runs(), 1)

    def test_it_gives_up(self):
        self.prover(f"echo '{self.GONE.format(8)}'; exit 1")
        self.assertEqual(self.tried("pair")[0], 0)
        self.assertLessEqual(self.runs(), 4)

    def test_what_is_not_refused(self):
        for body in ("echo logic=proved", "echo logic=not-proved", "echo no verdict; exit 3", "echo logic=not-proved; exit 2",
                     "echo what; exit 1"):
            self.setUp()
            self.prover(body)
            status, output = self.tried("pair")
            self.assertEqual(status, 1, output)
            self.assertIn("try-edits: crates/pair/must-fail/first.edit: the prover does not refuse it", output)
            self.prover("echo logic=not-proved; exit 1")
            self.runs()
            self.assertEqual((self.tried("pair")[0], self.runs()), (0, 1), body)

    def test_an_edit_that_cannot_be_applied(self):
        self.write("crates/pair/must-fail/first.edit", self.EDIT.replace("x / 2", "x / 5"))
        status, output = self.tried()
        self.assertEqual((status, output), (1, "try-edits: crates/pair/must-fail/first.edit: 'x / 5' stands 0 times in src/lib.rt\n"))

    def test_no_rt(self):
        self.write("bin/rt", "#!/bin/sh\nexit 2\n", 0o755)
        self.assertEqual(self.tried(), (1, "try-edits: there is no rt that says where its kit is\n"))


class Libraries(Tree):
    """scripts/libraries with a stand-in for rt."""

    def setUp(self):
        super().setUp()
        for script in ("libraries", "kit.py", "in-memory"):
            self.copy_script(script)
        self.write("crates.txt", "user: pair\nlow:\npair: low\nother:\nfree staticlib: pair\n")
        for crate in ("low", "pair", "user", "other", "free"):
            self.write(f"crates/{crate}/src/lib.rt", SOURCE)
        self.write("bin/rt", '#!/bin/sh\necho "${PWD##*/} $*" >>../../runs\n[ ${PWD##*/} != "$FAILS" ] || { echo why; exit 1; }\n', 0o755)

    def built(self, *words, **variables):
        """Status, what is said, and where rt was called."""
        runs = os.path.join(self.root, "runs")
        self.write("runs", "")
        path = os.path.join(self.root, "bin") + os.pathsep + os.environ["PATH"]
        with mock.patch.dict(os.environ, variables):
            ended = self.run_script(os.path.join(self.root, "scripts/libraries"), *words, path=path)
        with open(runs, encoding="utf-8") as file:
            return (*ended, file.read().splitlines())

    ALL = ["low lib", "other lib", "pair lib", "user lib"]

    def test_all_of_them(self):
        """Lowest first, and no static library."""
        self.assertEqual(self.built(), (0, "", self.ALL))

    def test_those_below(self):
        self.assertEqual(self.built("free"), (0, "", ["low lib", "pair lib"]))
        self.assertEqual(self.built("pair", "other"), (0, "", ["low lib"]))

    def test_one_that_is_not_proved(self):
        self.assertEqual(self.built(FAILS="other"), (1, "why\nlibraries: FAILED: other is not proved\n", self.ALL[:2]))

    def test_right_after_rt_ci(self):
        self.assertEqual(self.built("proved"), (0, "", []))
        self.assertEqual(self.built("proved", "free"), (0, "", []))

    def test_a_library_of_an_earlier_check(self):
        """rt ci has put it back, and it may be of other code."""
        self.write("crates/other/out/rlib/stamp", "of earlier code")
        self.assertEqual(self.built("proved"), (0, "", self.ALL))
        self.assertEqual(self.built("proved", "free"), (0, "", ["low lib", "pair lib"]))

    def test_another_word(self):
        self.assertEqual(self.built("proven"), (1, "usage: libraries [proved] [NAME..]\n", []))


THIN = """// What C calls of `harpjuniper_address`.
ghost use Rattle.std.specs.Prelude.{◌≡◌};

// The class.
#[unsafe(no_mangle)]
pub extern "C" fn hj_class(address: u32, octets: &[u8]) -> u32
    ensures value { result ≡ class_of (record { 0 = address }) }
    ensures after { octets.now ≡ octets.now }
{
    harpjuniper_address::hj_class(address, octets)
}
"""


class Thin(Tree):
    """scripts/check-thin on one library of one function."""

    def setUp(self):
        super().setUp()
        self.library = THIN.replace("    harpjuniper_address::hj_class(address, octets)\n", "    let a = address;\n    a / 2\n")
        self.library += "\n// Not handed out.\npub fn half(x: u32) -> u32\n    ensures { result ≡ x }\n{\n    x\n}\n"
        self.write("crates/harpjuniper_address/src/lib.rt", self.library)
        self.write("crates/harpjuniper_c/src/addresses.rt", THIN)

    def check(self, *words):
        return self.run_script(os.path.join(ROOT, "scripts/check-thin"), *words, self.root)

    def test_it_is_thin(self):
        self.assertEqual(self.check(), (0, "thin: 1 functions of 1 files are handed to C as they are\n"))
        several = THIN.replace("(address, octets)\n", "(\n        address, octets,\n    )\n")
        self.write("crates/harpjuniper_c/src/addresses.rt", several)
        self.assertEqual(self.check()[0], 0)

    def refused(self, old, new, says):
        self.assertIn(old, THIN)
        self.write("crates/harpjuniper_c/src/addresses.rt", THIN.replace(old, new))
        status, output = self.check()
        self.assertEqual(status, 1, output)
        self.assertIn(says, output)

    def test_another_promise(self):
        for old, new in (("class_of (record", "class_if (record"), ("    ensures after { octets.now ≡ octets.now }\n", ""),
                         ("ensures value", "ensures number"), ("{ 0 = address }", "{ 0 = octets }"),
                         ("    ensures value", "    requires { address < 2 }\n    ensures value")):
            self.refused(old, new, "crates/harpjuniper_c/src/addresses.rt: hj_class has another head than in harpjuniper_address")

    def test_other_parameters(self):
        for old, new in (("address: u32, octets", "address: u16, octets"), ("&[u8]", "&mut [u8]"), (") -> u32", ") -> u64")):
            self.refused(old, new, "hj_class has another head")

    def test_another_body(self):
        for new in ("harpjuniper_address::hj_path(address, octets)", "harpjuniper_address::hj_class(octets, address)",
                    "harpjuniper_address::hj_class(address, octets) / 1", "return 0;\n    harpjuniper_address::hj_class(address, octets)"):
            self.refused("harpjuniper_address::hj_class(address, octets)", new, "hj_class does something else than harpjuniper_address::hj_class(address,octets)")

    def test_a_function_too_few_or_too_many(self):
        self.refused("hj_class(address: u32", "hj_klass(address: u32", "only one of them hands out hj_class")
        self.refused("#[unsafe(no_mangle)]\n", "", "only one of them hands out hj_class")
        self.write("crates/harpjuniper_c/src/addresses.rt", THIN)
        self.write("crates/harpjuniper_address/src/lib.rt", "// Nothing.\n")
        self.assertEqual(self.check()[0], 1)

    def test_a_file_too_few(self):
        os.remove(os.path.join(self.root, "crates/harpjuniper_c/src/addresses.rt"))
        self.assertEqual(self.check(), (1, "thin: there is no crates/harpjuniper_c/src/addresses.rt, for harpjuniper_address\n"))
        self.write("crates/other/src/within.rt", self.library)
        self.assertEqual(self.check(), (1, "thin: other::within hands out functions, and has no module here\n"))

    def test_it_is_written_anew(self):
        for text in ("", THIN.replace("class_of", "class_if")):
            self.write("crates/harpjuniper_c/src/addresses.rt", text)
            self.assertEqual(self.check("--renew")[0], 0)
            with open(os.path.join(self.root, "crates/harpjuniper_c/src/addresses.rt"), encoding="utf-8") as file:
                self.assertEqual(file.read().split("\n", 1)[1], THIN.split("\n", 1)[1])


class Documents(Tree):
    """scripts/check-documents on a page and a file that it speaks of."""

    def check(self, page):
        self.write("README.md", "# Read me\n")
        self.write("docs/PAGE.md", page)
        self.write("crates/address/proofs/Laws.antt", LAWS)
        return self.run_script(os.path.join(ROOT, "scripts/check-documents"), self.root)

    def refused(self, page, words):
        status, output = self.check(page)
        self.assertEqual((status, output), (1, words + "\n"))

    def test_what_is_there(self):
        page = "`one-class` and `twice`, in\n`crates/address/proofs/Laws.antt`; `within`, in `address/proofs/Laws.antt`.\n"
        page += "Of any crate: `crates/NAME/src/lib.rt`, `crates/*/must-fail/`, `docs/`; `tests/..`.\n"
        status, output = self.check(page)
        self.assertEqual((status, output), (0, "documents: 2 name what is there\n"))

    def test_a_file_that_is_gone(self):
        self.refused("One.\nSee `docs/OTHER.md`.\n", "docs/PAGE.md:2: there is no docs/OTHER.md")
        self.refused("`one-class`, in `address/specs/Laws.antt`\n", "docs/PAGE.md:1: there is no address/specs/Laws.antt")

    def test_a_definition_that_is_gone(self):
        page = "`twice`, `thrice`, in `crates/address/proofs/Laws.antt`\n"
        self.refused(page, "docs/PAGE.md:1: crates/address/proofs/Laws.antt declares no thrice")

    def test_the_house(self):
        def house(*rows):
            self.write("docs/ARCHITECTURE.md", "# Architecture\n\n## The house\n\n" + "".join(rows) + "\n## On\n\n| `rest` | no crate |\n")
        self.write("crates.txt", "# three\none:\ntwo: one\nthree: one two\n")
        self.write("crates/three/src/lib.rt", "")
        self.write("crates/three/src/part.rt", "")
        one, three = "| `one`, `two` | both |\n", "| `three` | Module `part` |\n"
        house(one, three)
        self.assertEqual(self.check("One.\n"), (0, "documents: 3 name what is there\n"))
        house(one)
        self.refused("One.\n", "docs/ARCHITECTURE.md:3: lists three 0 times, and crates.txt 1 times")
        house(one, three, "| `four` | more |\n")
        self.refused("One.\n", "docs/ARCHITECTURE.md:3: lists four 1 times, and crates.txt 0 times")
        house(one, "| `three` | a room |\n")
        self.refused("One.\n", "docs/ARCHITECTURE.md:6: the row of three does not name its module part")


class InMemory(Tree):
    """scripts/in-memory with a stand-in for df, which says what room there is."""

    def folder(self, free, **variables):
        self.write("bin/df", f"#!/bin/sh\necho Avail; echo '{free}'\n", 0o755)
        environment = {"PATH": os.path.join(self.root, "bin") + os.pathsep + os.environ["PATH"], **variables}
        command = [os.path.join(ROOT, "scripts/in-memory"), "sh", "-c", 'echo "${TMPDIR:-as it is}"; exit 3']
        ended = subprocess.run(command, capture_output=True, text=True, env=environment, check=False)
        self.assertEqual(ended.returncode, 3, ended.stderr)
        return ended.stdout.strip()

    @unittest.skipUnless(os.access("/dev/shm", os.W_OK), "this machine lends no memory")
    def test_where_there_is_room(self):
        self.assertEqual(self.folder(" 512"), "/dev/shm")

    def test_where_there_is_none(self):
        self.assertEqual(self.folder("  64"), "as it is")
        self.assertEqual(self.folder(""), "as it is")

    def test_a_folder_that_was_chosen_stays(self):
        self.assertEqual(self.folder("4096", TMPDIR="/chosen"), "/chosen")


class Compare(Tree):
    """scripts/compare with stand-ins for the programs."""

    def compare(self, *words, replay="cat", coverage="cat >/dev/null", ledger="cat >/dev/null", path=None, **others):
        """The others are replays in folders of their own, below build/."""
        self.copy_script("compare")
        programs = {"generate": f'echo "$@" >{self.root}/asked; echo a; echo b', "plain": "cat", "replay": replay}
        programs |= {"coverage": coverage, "ledger": ledger}
        programs |= {f"{folder}/replay": body for folder, body in others.items()}
        for name, body in programs.items():
            self.write(f"build/{name}", f"#!/bin/sh\n{body}\n", 0o755)
        return self.run_script(os.path.join(self.root, "scripts/compare"), *words, path=path)

    def read(self, name):
        with open(os.path.join(self.root, name), encoding="utf-8") as file:
            return file.read()

    def test_no_difference(self):
        status, output = self.compare()
        self.assertEqual(status, 0, output)
        self.assertIn("compare: build/replay: 2 calls, not one difference", output)

    def test_one_difference(self):
        status, output = self.compare(replay="sed s/b/c/")
        self.assertEqual(status, 1)
        self.assertIn("plain:  b\nreplay: c\ncompare: FAILED: build/replay: 1 lines differ", output)
        self.assertNotIn("not one difference", output)

    def test_a_line_too_few_or_too_many(self):
        for replay in ("head -n 1", "cat; echo c"):
            status, output = self.compare(replay=replay)
            self.assertEqual(status, 1)
            self.assertIn("FAILED: build/replay: 1 lines differ", output)

    def test_a_program_that_fails(self):
        for body in ("cat; exit 1", "exit 1"):
            status, output = self.compare(replay=body)
            self.assertEqual(status, 1, output)
            self.assertIn("compare: FAILED: a program did not go to its end", output)

    def test_books_that_do_not_balance(self):
        self.assertNotEqual(self.compare(ledger="cat >/dev/null; exit 1")[0], 0)

    def test_something_not_reached(self):
        self.assertNotEqual(self.compare(coverage="cat >/dev/null; exit 1")[0], 0)

    def test_several(self):
        """Each answers the trace, and its answers go once they are known; build/replay is not asked."""
        status, output = self.compare("build/one/replay", "build/two/replay", replay="exit 1", one="cat", two="cat")
        self.assertEqual(status, 0, output)
        for folder in ("one", "two"):
            self.assertIn(f"compare: build/{folder}/replay: 2 calls, not one difference", output)
            self.assertEqual(os.listdir(os.path.join(self.root, "build", folder)), ["replay"])
        self.assertEqual(self.read("build/compare.plain"), "a\nb\n")
        self.assertFalse(os.path.exists(os.path.join(self.root, "build/compare.replay")))

    def test_one_of_several_differs(self):
        programs = ("build/one/replay", "build/two/replay")
        for wrong, right in (("one", "two"), ("two", "one")):
            status, output = self.compare(*programs, **{wrong: "sed s/a/c/", right: "cat"})
            self.assertEqual(status, 1, output)
            self.assertIn(f"plain:  a\nreplay: c\ncompare: FAILED: build/{wrong}/replay: 1 lines differ", output)
            self.assertEqual(self.read(f"build/{wrong}/compare.replay"), "c\nb\n")
            self.assertNotIn("not one difference", output)

    def test_one_of_several_fails(self):
        for body in ("cat; exit 1", "kill -9 $$"):
            status, output = self.compare("build/one/replay", "build/two/replay", one=body, two="cat")
            self.assertEqual(status, 1, output)
            self.assertIn("compare: FAILED: a program did not go to its end", output)

    def test_one_of_several_is_not_there(self):
        status, output = self.compare("build/one/replay", "build/two/replay", two="cat")
        self.assertEqual(status, 1, output)
        self.assertIn("compare: FAILED: a program did not go to its end", output)

    def test_the_seed(self):
        status, output = self.compare("seed=7", "build/one/replay", one="cat")
        self.assertEqual(status, 0, output)
        self.assertTrue(output.splitlines()[0].endswith(" seed=7"), output)
        self.assertTrue(self.read("asked").endswith(" seed=7\n"))
        self.assertIn("compare: build/one/replay: 2 calls, not one difference", output)
        status, output = self.compare("seed=8")
        self.assertEqual(status, 0, output)
        self.assertIn("compare: build/replay: 2 calls, not one difference", output)
        self.assertTrue(self.read("asked").endswith(" seed=8\n"))
        self.compare()
        self.assertNotIn("seed=", self.read("asked"))

    def test_a_program_of_another_name(self):
        """Compared are its own answers, and not those of a replay beside it."""
        self.assertEqual(self.compare("build/one/replay", one="cat")[0], 0)
        self.write("build/one/other", "#!/bin/sh\nsed s/b/c/\n", 0o755)
        status, output = self.compare("build/one/other")
        self.assertEqual(status, 1, output)
        self.assertIn("compare: FAILED: build/one/other: 1 lines differ", output)

    def test_a_difference_that_cannot_be_told(self):
        self.write("bin/awk", "#!/bin/sh\nexit 3\n", 0o755)
        path = os.path.join(self.root, "bin") + os.pathsep + os.environ["PATH"]
        status, output = self.compare(replay="sed s/b/c/", path=path)
        self.assertNotEqual(status, 0, output)
        self.assertNotIn("not one difference", output)


HEADER = """/* hj_old(int); was here. */
static inline int hj_part(int answer)
{
    return answer;
}

/*
 *     hj_class(1);
 */
int hj_class(int address);
int hj_take(int port,
            int more);
"""


class Exports(Tree):
    """scripts/check-exports with stand-ins for nm, of which one knows the archive."""

    def check(self, symbols, names="hj_class\nhj_take\n", header=HEADER, needed="memset\n",
              target="x86-64", machine="x86_64"):
        self.copy_script("check-exports")
        self.write("exports.txt", names)
        self.write("imports.txt", needed)
        self.write("include/harpjuniper.h", header)
        self.write("bin/uname", f"#!/bin/sh\necho {machine}\n", 0o755)
        shown = "".join(f"echo '{symbol}'\n" for symbol in symbols)
        for nm in ["nm", *(f"{machine_of(other)}-linux-gnu-nm" for other in TARGETS)]:
            self.write(f"bin/{nm}", "#!/bin/sh\necho not known >&2\nexit 1\n", 0o755)
        reads = '#!/bin/sh\n[ "$*" = "--extern-only some.a" ] || exit 1\n'
        self.write(f"bin/{tool_of('nm', target, machine)}", reads + shown, 0o755)
        return self.exports("some.a", target)

    def exports(self, *words):
        path = os.path.join(self.root, "bin") + os.pathsep + os.environ["PATH"]
        return self.run_script(os.path.join(self.root, "scripts/check-exports"), *words, path=path)

    GOOD = ("", "a.o:", "0000 T hj_class", "0010 T hj_take", "U memset", "U rt_other", "", "b.o:", "0020 T rt_other")

    def refused(self, says, *words, **more):
        status, output = self.check(*words, **more)
        self.assertEqual(status, 1, output)
        self.assertIn(says, output)

    def test_the_list(self):
        self.assertEqual(self.check(self.GOOD), (0, "check-exports: 2 functions, 1 needed from outside\n"))

    def test_every_target_on_every_machine(self):
        for machine in MACHINES:
            for target in TARGETS:
                with self.subTest(machine=machine, target=target):
                    status, output = self.check(self.GOOD, target=target, machine=machine)
                    self.assertEqual((status, output), (0, "check-exports: 2 functions, 1 needed from outside\n"))
                    self.refused("> hj_put", self.GOOD + ("0030 T hj_put",), target=target, machine=machine)

    def test_an_archive_that_nm_cannot_read(self):
        self.check(self.GOOD)
        for target, nm in (("x86-64", "nm"), ("riscv64", "riscv64-linux-gnu-nm")):
            status, output = self.exports("other.a", target)
            self.assertEqual(status, 1, output)
            self.assertIn(f"check-exports: FAILED: {nm} cannot read other.a", output)

    def test_other_words(self):
        self.check(self.GOOD)
        for words in ((), ("some.a",), ("some.a", "x86-64", "more")):
            self.assertEqual(self.exports(*words), (2, "usage: check-exports ARCHIVE TARGET\n"), words)

    def test_a_function_too_many(self):
        self.refused("> hj_put", self.GOOD + ("0030 T hj_put",))

    def test_a_function_too_few(self):
        self.refused("< hj_take", self.GOOD[:3] + self.GOOD[4:])

    def test_what_is_needed_from_outside(self):
        self.refused("> memcpy", self.GOOD + ("U memcpy",))
        self.refused("> weak", self.GOOD + ("w weak",))
        self.refused("< memcpy", self.GOOD, needed="memcpy\nmemset\n")
        self.refused("> memset", self.GOOD, needed="")
        self.refused("not sorted", self.GOOD, needed="memset\nmemcpy\n")

    def test_nothing_needed_from_outside(self):
        nothing = self.check([symbol for symbol in self.GOOD if "memset" not in symbol], needed="")
        self.assertEqual(nothing, (0, "check-exports: 2 functions, 0 needed from outside\n"))

    def test_something_that_is_no_code(self):
        self.refused("D hj_table", self.GOOD + ("0030 D hj_table",))

    def test_a_list_that_is_not_sorted(self):
        self.refused("not sorted", self.GOOD, names="hj_take\nhj_class\n")

    def test_another_header(self):
        self.refused("> hj_put", self.GOOD, header=HEADER + "int hj_put(void);\n")
        self.refused("< hj_take", self.GOOD, header=HEADER[:HEADER.index("int hj_take")])


class Bench(Tree):
    """scripts/bench with stand-ins for the emulator, nm, the program and os.uname."""

    CALLS = r"nothing\tnothing\ntake\tplain\ntake\tours\n"
    STACK = r"nothing\tnothing\t100\ntake\tplain\t140\ntake\tours\t160\n"
    TAKES = "b1eb1234eb123456789e"
    MACHINE = "import os\nos.uname = lambda: os.uname_result(('Linux', 'here', '1', '1', '{}'))\n"

    def stand_ins(self, log, count, status, emulator):
        """Those that bench calls. Each asks that the program is there."""
        places = {"b": "10", "e": "20"}
        lines = [f"Trace 0: 0x1 [0/{places.get(at, at)}/0/0] x" for at in log]
        self.write("log", "Linking\n" + "\n".join(lines) + "\n")
        self.write(emulator, f"""#!/bin/sh
case "$*" in
-help) echo -one-insn-per-tb ;;
--version) echo qemu 1 ;;
*state) [ -f "$1" ] && printf 'ours\\t8\\nplain\\t4\\nours, a record\\t3\\nplain, a record\\t2\\n' ;;
*stack) [ -f "$1" ] && printf '{self.STACK}' ;;
*count) [ -f "$6" ] && cat {self.root}/log >"$5"; printf '{count}'; exit {status} ;;
esac
""", 0o755)
        for tool in ("sh", "cat", "python3", "env", "mv", "tr"):
            place = os.path.join(self.root, "bin", tool)
            if not os.path.lexists(place):
                os.symlink(shutil.which(tool), place)

    def bench(self, log=TAKES, count=CALLS, status=0, package=None, target="", machine="x86_64"):
        """The log has the addresses of the instructions, b and e for the marks. The emulator
        stands at package where it is still to be installed."""
        counted = target or machine.replace("x86_64", "x86-64")
        self.copy_script("bench")
        self.copy_script("emulator")
        self.write("bench/mix.trace", "new\n")
        code = "" if machine_of(counted) == machine else f".{counted}"
        self.write(os.path.join("build", target, "bench" + code), "")
        nm = tool_of("nm", counted, machine)
        self.write(f"bin/{nm}", '#!/bin/sh\n[ -f "$1" ] && echo 10 T bench_begin && echo 20 T bench_end\n', 0o755)
        self.stand_ins(log, count, status, package or f"bin/qemu-{machine_of(counted)}")
        self.write("site/sitecustomize.py", self.MACHINE.format(machine))
        with mock.patch.dict(os.environ, PYTHONPATH=os.path.join(self.root, "site"), TARGET=target):
            return self.run_script(os.path.join(self.root, "scripts/bench"), path=os.path.join(self.root, "bin"))

    def test_what_lies_between_the_marks_is_counted(self):
        status, output = self.bench("77b1e77b1234e77b123456789e")
        self.assertEqual(status, 0, output)
        rows = [line.split() for line in output.splitlines()]
        self.assertIn(["take", "1", "8", "3", "2.67", "1.00", "1.00"], rows)
        self.assertIn(["board", "and", "two", "missions,", "octets", "8", "4"], rows)
        self.assertIn(["a", "record", "of", "the", "list,", "octets", "3", "2"], rows)
        self.assertIn("stack of the deepest call, octets 60 40 (take; take)".split(), rows)

    def test_floods_have_rows_of_their_own(self):
        status, output = self.bench(count=self.CALLS.replace("take", "sweep, all freed"))
        self.assertEqual(status, 0, output)
        self.assertIn("sweep, all freed 1 8 3 2.67 1.00 1.00".split(), [line.split() for line in output.splitlines()])
        self.assertNotIn("receive, sent by route", output)

    def test_a_batch_is_told_by_the_item(self):
        """One of two items: 3 and 5 instructions by plain, 2 and 4 by ours, 4 together in one call."""
        kind = "batch of 64, refused"
        sides = ("plain", "ours", "plain", "ours", "batch")
        count = r"nothing\tnothing\n" + "".join(rf"{kind}\t{side}\n" for side in sides)
        status, output = self.bench("b1eb1234eb123eb123456eb12345eb12345e", count)
        self.assertEqual(status, 0, output)
        rows = [line.split() for line in output.splitlines()]
        self.assertIn(f"{kind} 2 2 3 4 0.67 0.50".split(), rows)
        self.assertIn("batch of 64, mixed 0".split(), rows)
        self.assertNotIn("receive, sent by route", output)

    def test_a_measure_is_missing(self):
        status, output = self.bench("b1eb1234e")
        self.assertEqual(status, 1, output)
        self.assertIn("3 calls, 2 measures", output)

    def test_a_program_that_fails(self):
        status, output = self.bench("b1e", count=r"nothing\tnothing\nbench: FAILED: take 1\n", status=1)
        self.assertEqual(status, 1, output)
        self.assertIn("bench: FAILED: take 1", output)

    def test_every_target_on_every_machine(self):
        """The code of this target is found alone, since there is no other in the tree."""
        for machine in MACHINES:
            for target in ("", *TARGETS):
                with self.subTest(machine=machine, target=target):
                    self.setUp()
                    status, output = self.bench(target=target, machine=machine)
                    self.assertEqual(status, 0, output)
                    counted = target or machine.replace("x86_64", "x86-64")
                    lines = output.splitlines()
                    self.assertEqual(lines[0], f"{counted} instructions, counted by qemu 1 on {machine}")
                    self.assertIn("take 1 8 3 2.67 1.00 1.00".split(), [line.split() for line in lines])

    def test_a_machine_that_is_no_target(self):
        """make links x86-64 code there, and that is counted."""
        self.write("build/bench.x86-64", "")
        self.write("bin/x86_64-linux-gnu-nm", "#!/bin/sh\necho 10 T bench_begin\necho 20 T bench_end\n", 0o755)
        self.stand_ins(self.TAKES, self.CALLS, 0, "bin/qemu-x86_64")
        status, output = self.bench(machine="ppc64le", package="unused")
        self.assertEqual(status, 0, output)
        self.assertTrue(output.startswith("x86-64 instructions, counted by qemu 1 on ppc64le\n"), output)

    def test_an_emulator_is_installed(self):
        for target, asked in (("", "x86-64"), ("riscv64", "riscv64")):
            with self.subTest(target=target):
                self.setUp()
                moves = f"mv {self.root}/package {self.root}/bin/qemu-{machine_of(asked)}"
                self.write("scripts/prepare", f"#!/bin/sh\necho prepare $*\n{moves}\n", 0o755)
                status, output = self.bench(package="package", target=target)
                self.assertEqual(status, 0, output)
                says = f"prepare bench {asked}\n{asked} instructions, counted by qemu 1"
                self.assertTrue(output.startswith(says), output)

    def test_no_emulator_is_to_be_had(self):
        self.write("scripts/prepare", "#!/bin/sh\necho prepare: missing: qemu-user >&2\nexit 1\n", 0o755)
        for target in TARGETS:
            status, output = self.bench(package="package", target=target)
            says = f"prepare: missing: qemu-user\nbench: FAILED: there is no qemu for {target}\n"
            self.assertEqual((status, output), (1, says))


class Emulators(Tree):
    """Stand-ins for rt, uname and the emulators of all targets: each says where it stands."""

    def stand_ins(self, *emulators, machine="aarch64", rt=None):
        self.write("bin/uname", f"#!/bin/sh\necho {machine}\n", 0o755)
        if rt:
            self.write("bin/rt", f"#!/bin/sh\n{rt}\n", 0o755)
        for tool in ("sh", "dirname", "tr"):
            place = os.path.join(self.root, "bin", tool)
            if not os.path.lexists(place):
                os.symlink(shutil.which(tool), place)
        for place in emulators:
            self.write(place, f'#!/bin/sh\necho {place} "$@"\nexit 7\n', 0o755)

    def guide(self):
        """An rt that says where its guide is."""
        return f"[ $1 = doc ] && echo {self.root}/kit/doc/guide.md"

    def of_the_kit(self, machine="aarch64"):
        return [f"kit/on/{machine}/toolchain/bin/qemu-{machine_of(target)}" for target in TARGETS]

    OF_THE_PATH = [f"bin/qemu-{machine_of(target)}" for target in TARGETS]

    def run_here(self, *words):
        return self.run_script(*words, path=os.path.join(self.root, "bin"))


class Emulated(Emulators):
    """scripts/emulated beside the code of each target, which has a folder of its own."""

    def setUp(self):
        super().setUp()
        with open(os.path.join(ROOT, "scripts/emulated"), encoding="utf-8") as file:
            text = file.read()
        for target in TARGETS:
            self.write(f"{target}/silent-leg", text, 0o755)
            self.write(f"{target}/silent-leg.{target}", "code")

    def emulated(self, target):
        return self.run_here(os.path.join(self.root, target, "silent-leg"), "a word", "--help")

    def all_ran_by(self, places):
        for target, place in zip(TARGETS, places):
            ran = f"{place} {self.root}/{target}/silent-leg.{target} a word --help\n"
            self.assertEqual(self.emulated(target), (7, ran))

    def test_the_emulator_of_the_kit(self):
        for machine in MACHINES:
            self.stand_ins(*self.of_the_kit(machine), *self.OF_THE_PATH, machine=machine, rt=self.guide())
            self.all_ran_by(self.of_the_kit(machine))

    def test_a_kit_without_one(self):
        self.stand_ins(*self.OF_THE_PATH, rt=self.guide())
        self.all_ran_by(self.OF_THE_PATH)

    def test_a_kit_with_one_for_x86_64(self):
        kits = self.of_the_kit()[:1]
        self.stand_ins(*kits, *self.OF_THE_PATH, rt=self.guide())
        self.all_ran_by(kits + self.OF_THE_PATH[1:])

    def test_no_kit(self):
        self.stand_ins(*self.OF_THE_PATH)
        self.all_ran_by(self.OF_THE_PATH)

    def test_an_rt_that_says_nothing(self):
        self.stand_ins(*self.OF_THE_PATH, rt="echo what >&2; exit 2")
        self.all_ran_by(self.OF_THE_PATH)

    def test_no_emulator(self):
        for at, target in enumerate(TARGETS):
            with self.subTest(target=target):
                self.setUp()
                self.stand_ins(*self.OF_THE_PATH[:at], *self.OF_THE_PATH[at + 1:], rt=self.guide())
                name = f"{self.root}/{target}/silent-leg"
                says = f"{name}: there is no qemu-{machine_of(target)}: apt-get install qemu-user\n"
                self.assertEqual(self.emulated(target), (2, says))


class Emulator(Emulators):
    """scripts/emulator, which says where the emulator is."""

    def found(self):
        """Status and answer for each target."""
        return [self.run_here(os.path.join(ROOT, "scripts/emulator"), target) for target in TARGETS]

    def answers(self, places):
        return [(0, f"{self.root}/{place}\n") for place in places]

    def test_the_emulator_of_the_kit(self):
        for machine in MACHINES:
            self.stand_ins(*self.of_the_kit(machine), *self.OF_THE_PATH, machine=machine, rt=self.guide())
            self.assertEqual(self.found(), self.answers(self.of_the_kit(machine)))

    def test_a_kit_with_one_for_x86_64(self):
        kits = self.of_the_kit()[:1]
        self.stand_ins(*kits, *self.OF_THE_PATH, rt=self.guide())
        self.assertEqual(self.found(), self.answers(kits + self.OF_THE_PATH[1:]))

    def test_no_kit(self):
        self.stand_ins(*self.OF_THE_PATH)
        self.assertEqual(self.found(), self.answers(self.OF_THE_PATH))

    def test_no_emulator(self):
        self.stand_ins(rt=self.guide())
        self.assertEqual(self.found(), [(1, "")] * 3)
        self.stand_ins(*self.OF_THE_PATH[:2])
        self.assertEqual(self.found(), [*self.answers(self.OF_THE_PATH[:2]), (1, "")])


class Prepare(Tree):
    """scripts/prepare on machines that lack something."""

    TOOLS = ("bash", "sh", "cat", "tr", "env", "uname", "make", "python3", "as", "ld")
    CROSS = tuple(f"{machine_of(target)}-linux-gnu-gcc" for target in TARGETS)
    COMPILERS = ("gcc", "g++", *CROSS)
    EMULATORS = tuple(f"bin/qemu-{machine_of(target)}" for target in TARGETS)
    PACKAGES = {"x86-64": ["gcc-x86-64-linux-gnu", "libc6-dev-amd64-cross"],
                "aarch64": ["gcc-aarch64-linux-gnu", "libc6-dev-arm64-cross"],
                "riscv64": ["gcc-riscv64-linux-gnu", "libc6-dev-riscv64-cross"]}

    def prepare(self, *words, without=(), user="0", machine="x86_64", emulators=EMULATORS, apt="exit 1",
                compiles="cat >/dev/null"):
        """On a machine of its own, in a tree of its own. The kit's guide is in kit/doc."""
        self.setUp()
        stand_ins = {name: compiles for name in self.COMPILERS}
        stand_ins |= {"id": f"echo {user}", "apt-get": f"echo apt-get $*; {apt}", "uname": f"echo {machine}",
                      "rt": f"echo {self.root}/kit/doc/guide.md"}
        for name, body in stand_ins.items():
            self.write(f"bin/{name}", f"#!/bin/sh\n{body}\n", 0o755)
        for name in self.TOOLS:
            target = os.path.join(self.root, "bin", name)
            if shutil.which(name) and not os.path.lexists(target):
                os.symlink(shutil.which(name), target)
        for place in emulators:
            self.write(place, "#!/bin/sh\n", 0o755)
        for name in without:
            os.remove(os.path.join(self.root, "bin", name))
        return self.run_script(os.path.join(ROOT, "scripts/prepare"), *words, path=os.path.join(self.root, "bin"))

    def missing(self, packages, *words, **lacks):
        """Each of the packages is said once, and no other."""
        status, output = self.prepare(*words, user="1000", **lacks)
        self.assertEqual(status, 1, output)
        found = re.search(r"missing: (.*)\. Only root may install it: apt-get install -y \S+ (.*)\n", output)
        self.assertEqual(sorted(found[1].split()), sorted(packages), (words, lacks))
        self.assertEqual(found[1], found[2])

    def test_everything_is_there(self):
        for machine in MACHINES:
            for target in TARGETS:
                for word in ("hosts", "bench"):
                    self.assertEqual(self.prepare(word, target, machine=machine), (0, ""), (machine, word, target))
            for words in ((), ("test",)):
                self.assertEqual(self.prepare(*words, machine=machine), (0, ""), (machine, words))

    @unittest.skipUnless(shutil.which("gcc") and shutil.which("g++"), "there are no compilers")
    def test_the_compilers_of_this_machine(self):
        """They are used, and not only looked for."""
        real = "\n".join(f'case $0 in */{name}) exec {shutil.which(name)} "$@" ;; esac' for name in ("gcc", "g++"))
        self.assertEqual(self.prepare(machine=os.uname().machine, compiles=f"{real}\ncat >/dev/null"), (0, ""))

    def test_no_rt(self):
        status, output = self.prepare(without=("rt",))
        self.assertEqual(status, 1)
        self.assertIn("there is no rt", output)

    def test_missing_and_not_root(self):
        self.missing(["g++"], without=("g++",))

    def test_missing_and_not_to_be_had(self):
        status, output = self.prepare(without=("g++",))
        self.assertEqual(status, 1)
        self.assertIn("apt-get update failed; missing: g++", output)

    def test_what_is_missing_is_installed(self):
        status, output = self.prepare("hosts", "riscv64", emulators=(), apt="exit 0")
        self.assertEqual((status, output.splitlines()), (0, [
            "prepare: installing qemu-user", "apt-get update -qq",
            "apt-get install -y --no-install-recommends qemu-user"]))

    def test_another_machine(self):
        status, output = self.prepare(machine="riscv64")
        self.assertEqual(status, 1)
        self.assertIn("this is a riscv64", output)

    def test_hosts_need_little(self):
        lacks = ("rt", "g++", "python3", *self.CROSS)
        for target in TARGETS:
            ended = self.prepare("hosts", target, without=lacks, machine=machine_of(target), emulators=())
            self.assertEqual(ended, (0, ""), target)

    def test_hosts_on_another_machine(self):
        """A machine that is no target at all is one, too."""
        for target in TARGETS:
            for machine in {*map(machine_of, TARGETS), "ppc64le"} - {machine_of(target)}:
                own = f"{machine_of(target)}-linux-gnu-gcc"
                others = [name for name in self.COMPILERS if name != own]
                needed = [place for place in self.EMULATORS if place.endswith(machine_of(target))]
                ended = self.prepare("hosts", target, without=["rt", *others], machine=machine, emulators=needed)
                self.assertEqual(ended, (0, ""), (target, machine))

    def test_hosts_without_a_compiler(self):
        for machine in MACHINES:
            for target in TARGETS:
                compiler = tool_of("gcc", target, machine)
                packages = ["gcc", "libc6-dev"] if compiler == "gcc" else self.PACKAGES[target]
                self.missing(packages, "hosts", target, without=(compiler,), machine=machine)

    def test_a_compiler_that_makes_no_program(self):
        for machine in MACHINES:
            packages = ["gcc", "libc6-dev", "g++"]
            packages += [name for target in TARGETS if machine_of(target) != machine for name in self.PACKAGES[target]]
            self.missing(packages, machine=machine, compiles="cat >/dev/null; exit 1")

    def test_a_compiler_without_a_static_library(self):
        dynamic = 'case "$*" in *-static*) exit 1 ;; esac; cat >/dev/null'
        self.missing(["gcc", "libc6-dev"], "hosts", "x86-64", compiles=dynamic)
        self.missing(self.PACKAGES["aarch64"], "hosts", "aarch64", compiles=dynamic)

    def test_bench_is_told_by_python(self):
        self.missing(["python3"], "bench", "riscv64", without=("python3",))

    def test_an_emulator_where_one_is_needed(self):
        for machine in MACHINES:
            self.missing(["qemu-user"], machine=machine, emulators=())
            for target in TARGETS:
                self.missing(["qemu-user"], "bench", target, machine=machine, emulators=())
                if machine_of(target) != machine:
                    self.missing(["qemu-user"], "hosts", target, machine=machine, emulators=())

    def test_the_emulator_for_every_target(self):
        """That of one other target is not enough, and none is needed for this machine."""
        for machine in MACHINES:
            others = [place for place in self.EMULATORS if not place.endswith(machine)]
            self.assertEqual(self.prepare(machine=machine, emulators=others), (0, ""))
            for place in others:
                self.missing(["qemu-user"], machine=machine, emulators=[place])

    def test_nothing_is_there(self):
        """Each package is said once, though several targets need it."""
        for machine in MACHINES:
            packages = ["gcc", "libc6-dev", "g++", "python3", "make", "qemu-user"]
            packages += [name for target in TARGETS if machine_of(target) != machine for name in self.PACKAGES[target]]
            self.missing(packages, machine=machine, emulators=(), without=(*self.COMPILERS, "python3", "make"))

    def test_the_emulator_of_the_kit(self):
        place = "kit/on/aarch64/toolchain/bin/qemu-x86_64"
        self.assertEqual(self.prepare("bench", "x86-64", machine="aarch64", emulators=[place]), (0, ""))
        self.missing(["qemu-user"], machine="aarch64", emulators=[place])

    def no_target(self, *words):
        says = f'prepare: there is no target "{"".join(words[1:])}": say one of x86-64 aarch64 riscv64\n'
        self.assertEqual(self.prepare(*words), (1, says))

    def test_another_target(self):
        for word in ("hosts", "bench"):
            for target in (["sparc"], ["x86_64"], ["x86"], [""], []):
                self.no_target(word, *target)

    def test_two_targets(self):
        self.no_target("hosts", "x86-64 aarch64")

    def test_another_word(self):
        status, output = self.prepare("hostst")
        says = "prepare: not understood: hostst. Say test, hosts TARGET, bench TARGET or nothing\n"
        self.assertEqual((status, output), (1, says))


if __name__ == "__main__":
    unittest.main()
