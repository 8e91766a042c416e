#!/usr/bin/env python3
"""respell: brings the names of definitions and lemmas to the spelling of today's Rattle, in crates/.

usage: respell.py [--table]

A word or a lemma is spelled in snake case (`first-of` and `firstOf` as `first_of`), a proposition or a type in upper camel case (`noneHolds` as
`NoneHolds`). Where a lemma would get the name of its definition, it gets `_lem`. What a walk of the code by hand names for itself (Proof.antt) stays,
and so do names of the library, of src/ and of C. It runs once, after port.py; --table prints the renamings and the files that it leaves, and writes nothing.
"""
import collections
import os
import re
import sys

sys.dont_write_bytecode = True
import declared

BY_HAND = {"agree": "AgreeAt", "noRoom": "lacks_room"}
TOKEN = re.compile(r'[^\s(){}.;,@"«»]+')
QUIET = re.compile(r'"(?:[^"\\\n]|\\.)*"|(?<![^\s(){}.;,@"«»])--[^\n]*')
IMPORT = re.compile(r"^\s*(?:pub\s+)?use\s+([^\s{]+?)\.?(?:\{([^}]*)\})?\s*(?:as\s+(\S+))?$", re.M)
SPAN = re.compile(r"`[^`\n]*`")


def snake(name):
    return re.sub(r"(?<=[a-z0-9])([A-Z])", lambda m: "_" + m[1].lower(), name.replace("-", "_"))


def camel(name):
    return "".join(part[:1].upper() + part[1:] for part in re.split("[-_]", name))


def read(path):
    with open(path, encoding="utf-8") as file:
        return file.read()


def walked(path):
    return os.path.basename(path) == "Proof.antt"


def own_crates():
    return set(os.listdir("crates"))


def from_library(text, crates):
    """The names that a file takes from the library."""
    names = set()
    for path, items, alias in IMPORT.findall(text):
        steps = path.split(".")
        if steps[0] == "Rattle" and len(steps) > 1 and steps[1] in crates:
            continue
        for item in items.split(","):
            names.add(item.split(" as ")[-1].strip())
    return names


def table():
    """Old name to new, and what was to be looked at."""
    kinds = collections.defaultdict(set)
    for path in declared.files():
        if walked(path):
            continue
        for name, kind, public in declared.declarations(path):
            kinds[name].add((kind, "/specs/" in path))
    turned = {}
    for name, how in kinds.items():
        if re.search(r"\w-\w", name) or re.match(r"[a-z]\w*[A-Z]", name) or (re.match("[a-z]", name) and {k for k, _ in how} == {"type"}):
            turned[name] = camel(name) if {k for k, _ in how} == {"type"} and re.match("[a-z]", name) else snake(name)
    return kinds, turned


def resolve(kinds, turned, tokens):
    """A lemma whose new name a definition gets is called by it with _lem; so is one that has that name already, where a file has both."""
    there = set(kinds) - set(turned)
    back = collections.defaultdict(list)
    for old, new in turned.items():
        back[new].append(old)
    for new, olds in back.items():
        specs = lambda o: any(spec for _, spec in kinds[o])
        if set(olds) & set(BY_HAND):
            turned[olds[0]] = BY_HAND[olds[0]]
            continue
        first = min(olds, key=lambda o: (not specs(o), "-" in o))
        for old in olds:
            if old != first:
                turned[old] = new + "_lem"
        if new in there and any(first in words and new in words for words in tokens.values()):
            turned[new if specs(first) and not specs(new) else first] = new + "_lem"
    return turned


def main():
    crates = own_crates()
    kinds, turned = table()
    paths = declared.files() + sorted(
        os.path.join(folder, name)
        for folder, _, names in os.walk("crates")
        if "/out" not in folder
        for name in names
        if name.endswith(".rt")
    )
    texts = {path: read(path) for path in paths}
    tokens = {}
    for path, text in texts.items():
        bare = QUIET.sub(" ", text) if path.endswith(".antt") else re.sub(r"//[^\n]*", " ", text)
        tokens[path] = {m[0] for m in re.finditer(r'(?<![.\w])' + TOKEN.pattern, bare)}
    turned = resolve(kinds, turned, {path: words for path, words in tokens.items() if path.endswith(".antt")})
    clashes = collections.defaultdict(set)
    for path in paths:
        for old in tokens[path] & set(turned):
            if turned[old] in tokens[path]:
                clashes[old].add(path)
    if "--table" in sys.argv:
        for old, new in sorted(turned.items()):
            print(f"{old}\t{new}\t{'clash ' + ' '.join(sorted(clashes[old])) if clashes[old] else ''}")
        return
    for path, text in texts.items():
        keep = from_library(text, crates) if path.endswith(".antt") else set()
        turn = lambda m: turned[m[0]] if m[0] in turned and m[0] not in keep else m[0]
        if path.endswith(".rt"):
            # Rust has no such names but in clauses, ghost items and comments
            some = lambda m: turned[m[0]] if m[0] in turned and re.search(r"[a-z0-9][A-Z]|-", m[0]) and m[0][0].islower() else m[0]
            new = TOKEN.sub(some, text)
        else:
            new, at = "", 0
            for quiet in QUIET.finditer(text):
                new += TOKEN.sub(turn, text[at:quiet.start()])
                said = quiet[0]
                new += SPAN.sub(lambda m: "`" + TOKEN.sub(turn, m[0][1:-1]) + "`", said) if said.startswith("--") else said
                at = quiet.end()
            new += TOKEN.sub(turn, text[at:])
        if new != text:
            with open(path, "w", encoding="utf-8") as file:
                file.write(new)


if __name__ == "__main__":
    main()
