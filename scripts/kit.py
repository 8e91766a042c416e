"""Rattle's kit, and its prover called as `rt ci` calls it, where rt has no command: to
see the whole log of a wrong program, and to compile the library that C links with a
toolchain of our own.

The prover reads each library that a crate uses as it was built, in crates/NAME/out.
"""
import hashlib
import os
import re
import subprocess

ROOT = os.path.dirname(os.path.dirname(os.path.abspath(__file__)))
PARTS = ("src", "specs", "proofs")
ROW = re.compile(r"(\w+)((?:\s+\w+)?)\s*:(.*)")


class Missing(Exception):
    """What is not there, in words."""


def home():
    """The kit's folder, which holds the page that `rt doc` names."""
    try:
        ended = subprocess.run(["rt", "doc"], capture_output=True, text=True, check=False)
    except OSError:
        ended = None
    if ended is None or ended.returncode != 0 or not ended.stdout.strip():
        raise Missing("there is no rt that says where its kit is")
    return os.path.dirname(ended.stdout.strip())


def crates(root=ROOT):
    """Each crate of crates.txt with the libraries that it lists, and those that are static
    libraries."""
    listed, static = {}, set()
    with open(os.path.join(root, "crates.txt"), encoding="utf-8") as file:
        for line in file:
            found = ROW.fullmatch(line.split("#")[0].strip())
            if found:
                listed[found[1]] = found[3].split()
                if found[2].strip() == "staticlib":
                    static.add(found[1])
    return listed, static


def below(listed, name):
    """All that a crate stands on, lowest first."""
    found = []
    for other in listed[name]:
        for one in [*below(listed, other), other]:
            if one not in found:
                found.append(one)
    return found


def files_of(crate):
    """The files of a crate that a proof reads."""
    found = []
    for part in PARTS:
        for folder, _, names in os.walk(os.path.join(crate, part)):
            found += [os.path.join(folder, name) for name in names if name.endswith((".rt", ".antt"))]
    return sorted(found)


def sum_of(root, listed, name):
    """A sum of all that a crate's proof reads: its files, and those of what it stands on."""
    whole = hashlib.sha256()
    for crate in [*below(listed, name), name]:
        for path in files_of(os.path.join(root, "crates", crate)):
            with open(path, "rb") as file:
                whole.update(repr((os.path.relpath(path, root), file.read())).encode())
    return whole.hexdigest()


def words(kit, root, listed, name):
    """The words by which `rt ci` calls the prover for a crate, behind `check` or `build`."""
    found = ["--crate-name", name, "src/lib.rt", "--extern", f"std={kit}/rlibs/std.rlib", "-L", f"dependency={kit}/rlibs"]
    built = {crate: os.path.join(root, "crates", crate, "out/rlib") for crate in below(listed, name)}
    for crate in listed[name]:
        found += ["--extern", f"{crate}={built[crate]}/{crate}.rlib"]
    for folder in built.values():
        found += ["-L", f"dependency={folder}"]
    return [*found, "--antt-project", f"{kit}/rattle/logic/antt-project.json", "--logic-built", f"{kit}/logic_built",
            "--links", f"{name}=", "--jobs", "1"]
