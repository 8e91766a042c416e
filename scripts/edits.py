"""The files of wrong programs, crates/CRATE/must-fail/LABEL.edit, and what the prover says
of them: scripts/try-edits keeps it, and scripts/check-must-fail reads it."""
import hashlib
import os
import re
from collections import namedtuple

import kit

Group = namedtuple("Group", "crate label programs")
Program = namedtuple("Program", "name words file old new")
Error = namedtuple("Error", "file line declaration message")
Failure = namedtuple("Failure", "needs masked_by")

# The beginning of the prover's last line, of a crate that it does not accept.
REFUSED = "logic=not-proved"


class Fault(Exception):
    """What is wrong with an edit file or a wrong program, in words."""


def read(*path):
    with open(os.path.join(*path), encoding="utf-8") as file:
        return file.read()


def read_group(path):
    """The wrong programs of an edit file, as rt reads it: a `file:` line holds for
    the pairs after it. A name holds for one pair; other comments are passed over."""
    programs, name, words, source, old = [], "", "", "", ""
    for line in read(path).split("\n"):
        head = re.match(r"# (\w+): *(.*)", line)
        if head:
            name, words = head.groups()
        elif line.startswith("file: "):
            source = line[len("file: "):]
        elif line.startswith("old: "):
            old = line[len("old: "):]
        elif line.startswith("new:"):
            programs.append(Program(name, words, source, old, re.sub("^new: ?", "", line)))
            name = words = old = ""
    crate = path.split(os.sep)[-3]
    return Group(crate, os.path.basename(path)[: -len(".edit")], programs)


def edited(root, group, look=None):
    """The text of each source once the changes are applied, one after the other. look is
    called with each change and the text that it changes. Raises Fault."""
    texts = {}
    if not group.programs:
        raise Fault("it has no 'old:' and 'new:' pair")
    for program in group.programs:
        if not program.file.startswith("src/"):
            raise Fault(f"it changes {program.file}, and not src/")
        text = texts.get(program.file) or read(root, "crates", group.crate, program.file)
        if not program.old or text.count(program.old) != 1:
            raise Fault(f"'{program.old}' stands {text.count(program.old)} times in {program.file}")
        if program.old == program.new:
            raise Fault(f"it leaves '{program.old}' as it is")
        if look:
            look(program, text)
        texts[program.file] = text.replace(program.old, program.new)
    return texts


# ---- Functions of a source file

# Comments and byte literals hold braces that are no blocks.
HIDDEN = re.compile(r"""//[^\n]*|b"(?:\\.|[^"\\])*"|b'(?:\\.|[^'\\])'""")
TOKEN = re.compile(
    r"\b(?P<kind>fn|impl|mod)\s+(?P<name>\w+)"
    r"|\b(?P<clause>requires|ensures|ghost)(?:\s+\w+)?\s*(?=\{)"
    r"|(?P<sign>[{}()\[\];])"
)


def function_bodies(text):
    """Each function's name, with its modules and type, and where its body is."""
    text = HIDDEN.sub(lambda found: " " * len(found.group()), text)
    bodies, blocks, waiting, clause, nested = [], [], None, False, 0
    for token in TOKEN.finditer(text):
        in_clause = any(kind == "clause" for kind, _, _ in blocks)
        sign = token["sign"]
        if sign == "{" and (clause or in_clause):
            # A promise, or a record in one: the function's body is still to come.
            blocks.append(("clause", "", token.end()))
            clause = False
        elif sign == "{":
            blocks.append((*(waiting or ("block", "")), token.end()))
            waiting = None
        elif sign == "}" and blocks:
            kind, name, start = blocks.pop()
            if kind == "fn":
                outer = [n for k, n, _ in blocks if k in ("impl", "mod")]
                bodies.append(("::".join(outer + [name]), start, token.start()))
        elif in_clause:
            continue
        elif token["kind"]:
            waiting, nested = (token["kind"], token["name"]), 0
        elif token["clause"]:
            clause = True
        elif sign in ("(", "[", ")", "]"):
            nested += 1 if sign in "([" else -1
        elif sign == ";" and nested == 0:
            waiting = None
    return bodies


def module_of(source):
    """The modules that a file below src/ stands for: src/a/b.rt is a::b."""
    parts = source[len("src/"): -len(".rt")].split("/")
    if parts[-1] in ("lib", "main", "mod"):
        parts.pop()
    return parts


def function_at(crate, program, text):
    """The function in whose body the old text stands."""
    start = text.index(program.old)
    end = start + len(program.old)
    for name, first, last in function_bodies(text):
        if first <= start and end <= last:
            return "::".join([crate] + module_of(program.file) + [name])
    raise Fault(f"'{program.old}' stands in the body of no function")


# ---- Logs


def log_path(root, edit):
    *_, crate, _, name = edit.split(os.sep)
    return os.path.join(root, "build/must-fail", crate, name[: -len(".edit")] + ".log")


def stamp(root, listed, edit):
    """The first line of an edit's log: a sum of all that its try reads."""
    crate = edit.split(os.sep)[-3]
    whole = hashlib.sha256(repr((kit.sum_of(root, listed, crate), read(edit))).encode())
    return f"of {whole.hexdigest()}"


FOLLOWS = re.compile(r"was not admitted")
MISFIT = re.compile(r"that can be named from here|record `\S*(?i:lts)\.\S+` has no field")
ERROR = re.compile(r"(?:\./)?((?:src|specs|proofs)/\S+?):(\d+):\d+: error: (?:`([^`]+)`: )?(.*)")
OPEN = re.compile(r"note: src/\S+: it is not proved that .*?\(`([^`]+)`\)")
CALLS = re.compile(r"[;:] it calls (`[^`]+`(?:(?:,| and) `[^`]+`)*), which (?:is|are) not proved")


def errors_of(log):
    """The errors in the crate's own files; those that only follow from others
    are left out."""
    found = filter(None, map(ERROR.match, log.split("\n")))
    return [Error(error[1], int(error[2]), error[3] or "", error[4]) for error in found if not FOLLOWS.search(error[4])]


def unproved_functions(log):
    """The functions that are not proved. Each has the needs that no answer of its proof
    files is for and that Rattle's own proof does not close, and the functions that it calls
    and that are not proved either. The notes on needs stand above the function's line."""
    unproved, needs = {}, []
    for line in log.split("\n"):
        found = re.match(r"(?:fn|struct|enum) (\S+): (.*)", line)
        opened = OPEN.match(line)
        if opened and opened[1] not in needs:
            needs.append(opened[1])
        if found and re.match("not proved|no proof", found[2]):
            calls = CALLS.search(found[2])
            told = re.search(r"(?:does not close|did not prove) ([^;]*)", found[2])
            needs += [need for need in re.findall(r"`([^`]+)`", told[1] if told else "") if need not in needs]
            unproved[found[1]] = Failure(needs, re.findall(r"`([^`]+)`", calls[1]) if calls else [])
        if found:
            needs = []
    return unproved


def proved_in(file, function):
    """The functions that a file below proofs/ proves, where the given one is
    among them, else none: proofs/F/Answers.antt, proofs/F/Proof.antt and the modules
    below it are F's, those of proofs/+F+G/ belong to a cycle of calls."""
    *outer, name = function.split("::")
    parts = file.split("/")[1:]
    if parts[: len(outer) - 1] != outer[1:] or len(parts) < len(outer) + 1:
        return set()
    folder = parts[len(outer) - 1]
    names = folder.split("+")[1:] if folder.startswith("+") else [folder]
    return {"::".join(outer + [n]) for n in names} if name in names else set()


def is_need(crate, error):
    """Whether the declaration that fails is the answer to a need, or a part of a walk by
    hand. An answer has the need as its type, or none of its own."""
    text = read(crate, error.file)
    if "use denote.Triple.Walked." in text:
        return True
    name = re.escape(error.declaration)
    typed = re.search(rf"^(?:pub )?{name}\s*:(?=\s)", text, re.M)
    if not typed:
        return error.file.endswith("/Answers.antt") and bool(error.declaration)
    return re.match(r"\s*(\([^()]*\)\s*→\s*)*(\S*\.Need-|(goal|\S*Goals)\.)", text[typed.end():]) is not None


def misfits(error):
    """Whether a proof names what the edit took away."""
    return MISFIT.search(error.message) is not None or error.declaration.endswith("-spec")
