#!/usr/bin/env python3
"""declared: the names that the definitions and proofs of crates/ declare, each with the file, what kind it is and the words before its type.

usage: declared.py      prints a line for each: kind, name, file
"""
import glob
import re

WORDS = r"(?:(?:abbrev|unfoldable|opaque|pub|private|record|data|ruleset|syntax)\s+)*"
HEAD = re.compile(rf"^(?P<in> *)(?P<words>{WORDS})(?P<name>[^\s(){{}}.;,@\"«»:]+)(?P<binders>(?:\s+(?:\{{[^{{}}]*\}}|\([^()]*(?:\([^()]*\)[^()]*)*\)))*)\s+:(?:\s|$)")
SKIP = {"let", "in", "use", "module", "where", "--", "λ", "elim", "record", "unfolding"}


def files():
    return sorted(
        path
        for part in ("specs", "proofs")
        for path in glob.glob(f"crates/*/{part}/**/*.antt", recursive=True)
    )


def is_type(signature):
    """Whether what a signature ends in is a universe."""
    depth, last = 0, 0
    for i, c in enumerate(signature):
        if c in "({":
            depth += 1
        elif c in ")}":
            depth -= 1
        elif c == "→" and depth == 0:
            last = i + 1
    return re.fullmatch(r"\s*Type\s*\S*\s*(?:where)?\s*", signature[last:]) is not None


def declarations(path):
    """Each declaration of a file: name, kind (type, term, field, constructor), whether it is public."""
    with open(path, encoding="utf-8") as file:
        lines = file.read().split("\n")
    inside, found = None, []  # inside: the indentation and the kind of the record or data that is open
    for at, line in enumerate(lines):
        if not line.strip() or line.lstrip().startswith("--"):
            continue
        indent = len(line) - len(line.lstrip())
        if inside and indent <= inside[0]:
            inside = None
        head = HEAD.match(line)
        if not head or head["name"] in SKIP:
            continue
        signature = line[head.end():]
        for more in lines[at + 1:]:
            if more.strip() and len(more) - len(more.lstrip()) <= indent:
                break
            if not more.lstrip().startswith("--"):
                signature += " " + more.split(" --")[0]
        words = head["words"].split()
        if inside:
            if indent == inside[0] + 2:
                found.append((head["name"], inside[1], "pub" in words))
            continue
        if "record" in words or "data" in words:
            inside = (indent, "field" if "record" in words else "constructor")
            found.append((head["name"], "type", "pub" in words))
            continue
        if indent > 6:
            continue
        found.append((head["name"], "type" if is_type(signature.split(" where")[0]) else "term", "pub" in words))
    return found


if __name__ == "__main__":
    for path in files():
        for name, kind, public in declarations(path):
            print(kind, "pub" if public else "own", name, path)
