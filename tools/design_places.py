#!/usr/bin/env python3
"""design_places: the places in crates/*/src that docs/DESIGN-PASS.md speaks of, counted by point.

usage: design_places.py [-v] [FOLDER]      counts in FOLDER (here), with -v each place; a checkout of an
                                           older commit counts what stood there
"""
import glob
import re
import sys
from collections import Counter


# What a variant is called that says that there is no value.
NOTHING = ("Absent", "Lost", "Missing", "Mixed", "No", "None", "Nothing", "Other", "Unsaid")


def sources(folder):
    """Each source file without its comments, by its path below crates/."""
    texts = {}
    for path in sorted(glob.glob(f"{folder}/crates/*/src/**/*.rt", recursive=True)):
        with open(path, encoding="utf-8") as file:
            text = file.read()
        texts[path.split("/crates/", 1)[1]] = re.sub(r"//.*", "", text)
    return texts


def found(texts, pattern):
    """Each match of a pattern, as the file and the line that it begins."""
    return [
        f"{path}: {' '.join(match[0].split())[:100]}"
        for path, text in texts.items()
        for match in re.finditer(pattern, text, flags=re.M)
    ]


def own_options(texts):
    """Enums of a variant without data and one with data, or of two variants with one for the refusal."""
    places = []
    for path, text in texts.items():
        for name, body in re.findall(r"enum (\w+) \{\n(.*?)\n\}", text, flags=re.S):
            variants = [line.strip().rstrip(",") for line in body.split("\n") if line.strip()]
            empty = [v for v in variants if "(" not in v]
            option = len(empty) == 1 and len(variants) > 1 and empty[0] in NOTHING
            result = len(variants) == 2 and any(v.startswith(("Refused", "Failed", "Invalid")) for v in variants)
            if option or result:
                places.append(f"{path}: enum {name}")
    return places


def repeated(texts, least=3):
    """Conjuncts of `requires` clauses, as written, that stand in so many functions at least; a place is a function."""
    facts = Counter()
    for text in texts.values():
        for clause in re.findall(r"requires (?:\w+ )?\{((?:[^{}]|\{[^{}]*\})*)\}\n", text):
            for fact in {re.sub(r"[()\s]+", " ", part).strip().replace(".old", ".now") for part in clause.split("×")}:
                facts[fact] += 1
    return [f"{fact}" for fact, count in facts.items() if count >= least for _ in range(count)]


def travelling(texts):
    """Functions that take a header with its renewal and the octets it was read of, or five numbers and more."""
    places = []
    for path, text in texts.items():
        for name, arguments in re.findall(r"fn (\w+)\(([^)]*)\)", text):
            names = re.findall(r"(\w+):", arguments)
            numbers = len(re.findall(r": (?:u8|u16|u32|u64|usize)\b", arguments))
            if {"header", "renewal"} <= set(names) or {"h", "n", "at"} <= set(names) or numbers >= 5:
                places.append(f"{path}: {name}({', '.join(names)})")
    return places


def twins(folder):
    """Pairs of functions of one crate whose code is the same but for names, types and numbers."""
    places = []
    for path, text in sources(folder).items():
        shapes = {}
        for name, rest in re.findall(r"^ *(?:pub )?fn (\w+)(.*?\n\}\n)", text, flags=re.S | re.M):
            clauses = re.sub(r"^ *(?:ensures|requires).*?(?=^\{|^ *ensures|^ *requires)", "", rest, flags=re.S | re.M)
            shape = re.sub(r"\b\w+\b", "w", clauses)
            if shape.count("\n") >= 6:
                shapes.setdefault((path.split("/")[0], shape), []).append(name)
        places += [f"{path}: {', '.join(names)}" for (_, _), names in shapes.items() if len(names) > 1]
    return places


def counted(folder):
    texts = sources(folder)
    return [
        ("1 own enums of the shape of Option or Result", own_options(texts)),
        ("1 a flag or a number 0 with the values beside it", found(texts, r"^ *pub (?:refusal|found|looked|made|took|counted|summed): (?:u8|u32|bool),")),
        ("1 numbers for kinds", found(texts, r"^pub const (?:NOTHING|BEST|SAME): u32")),
        ("1 numbers for refusals", found(texts, r"(?:return |Refused\(|refused\(|no_answer\(|not_looked\(|refusal\(|refusal_number\()(?:[2-35-9]|1[7-9]|2\d|35|(?<!return )(?:1|4|16))\b")),
        ("1 checks taken by let .. else", found(texts, r"let Check::Passed = ")),
        ("2 twins", twins(folder)),
        ("3 loops that count by hand", found(texts, r"^ *(?:while|loop)\b.*\{")),
        ("4 equality on the number inside", found(texts, r"\w\.0 (?:==|!=) ")),
        ("4 conversions by hand", found(texts, r"^ *(?:pub )?fn (?:\w+_number|numbers_of|fields_from|\w+_word)\(\w+: [A-Z]\w*(?:, \w+: u32)?\)")),
        ("5 facts of three and more functions", repeated(texts)),
        ("5 parameters that travel together", travelling(texts)),
        ("6 buffers with a length, parallel arrays", found(texts, r"^ *(?:pub (?:own|subnet|class|entries): \[|let \w+_size = make_if)")),
        ("7 switches on a step, tables of functions", found(texts, r"\[fn\(|match (?:step|stage)\b")),
    ]


def main():
    arguments = [a for a in sys.argv[1:] if a != "-v"]
    for title, places in counted(arguments[0] if arguments else "."):
        print(f"{len(places):5}  {title}")
        if "-v" in sys.argv:
            for place, count in sorted(Counter(places).items()):
                print(f"         {place}" + (f"  ({count} times)" if count > 1 else ""))


if __name__ == "__main__":
    main()
