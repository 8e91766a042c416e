#!/usr/bin/env python3
"""respell_docs: in README.md and docs/*.md, turns each name of tools/respelled.tsv that stands in
backquotes, or in a block fenced as antt or rust, to its new spelling.

It was run once, when the repository came to another Rattle (docs/PORT.md). `scripts/check-promises
--renew` then writes the quoted statements anew from the files that they stand in.
"""
import glob
import os
import re

ROOT = os.path.dirname(os.path.dirname(os.path.abspath(__file__)))
# What the table leaves out, since another file has a name that is spelled alike.
MORE = {"gives-row": "gives_row", "read-out": "read_out_lem", "read-back": "read_back", "none-written": "none_written",
        "read-next": "read_next", "written-read": "written_read", "turn-holds": "turn_holds", "seen-at": "seen_at",
        "one-class": "one_class", "fields-back": "fields_back", "search-no": "search_no", "search-is": "search_is",
        "take-head": "take_head", "take-behind": "take_behind", "movesOf": "moves_of", "lineOf": "line_of",
        "takeOf": "take_of"}
FENCED = re.compile(r"^```(?:antt|rust)\n.*?^```$", re.M | re.S)
QUOTED = re.compile(r"`[^`\n]+`")
WORD = re.compile(r"(?<![\w./'-])[A-Za-z][\w'-]*(?![\w'/-])")


def table():
    with open(os.path.join(ROOT, "tools/respelled.tsv"), encoding="utf-8") as file:
        return {**dict(line.rstrip("\n").split("\t")[:2] for line in file if "\t" in line), **MORE}


def snake(name):
    return re.sub(r"(?<=[a-z0-9])([A-Z])", lambda found: "_" + found[1].lower(), name.replace("-", "_"))


def declared():
    """Each name that a file of specs/ or proofs/ declares."""
    names = set()
    for path in glob.glob(f"{ROOT}/crates/*/specs/**/*.antt", recursive=True) + glob.glob(f"{ROOT}/crates/*/proofs/**/*.antt", recursive=True):
        with open(path, encoding="utf-8") as file:
            names.update(re.findall(r"^\s*(?:(?:unfoldable|abbrev|pub|data|record)\s+)*([\w']+)(?=\s)", file.read(), re.M))
    return names


class Names(dict):
    """The table; and any other name in the old spelling that is declared in the new one."""

    def __init__(self):
        super().__init__(table())
        self.declared = declared()

    def get(self, word, other):
        if word in self:
            return self[word]
        new = snake(word)
        return new if new in self.declared else other


def respelled(text, names):
    """The text with its names respelled, in code alone."""
    def words(code):
        # A file, or a wrong program, has a name of its own.
        if re.match(r"`(?:[\w.]+/|must-fail )", code):
            return code
        return WORD.sub(lambda word: names.get(word[0], word[0]), code)

    parts, at = [], 0
    for block in FENCED.finditer(text):
        parts.append(QUOTED.sub(lambda code: words(code[0]), text[at:block.start()]))
        parts.append(words(block[0]))
        at = block.end()
    parts.append(QUOTED.sub(lambda code: words(code[0]), text[at:]))
    return "".join(parts)


def main():
    names = Names()
    for path in [f"{ROOT}/README.md", *sorted(glob.glob(f"{ROOT}/docs/*.md"))]:
        if os.path.basename(path).startswith("PORT"):
            continue
        with open(path, encoding="utf-8") as file:
            text = file.read()
        new = respelled(text, names)
        if new != text:
            with open(path, "w", encoding="utf-8") as file:
                file.write(new)
            print(f"respell_docs: {os.path.relpath(path, ROOT)}")


main()
