#!/usr/bin/env python3
"""make install into a temporary DESTDIR: the files that it puts there, programs
compiled against them with the flags of harpjuniper.pc, and make uninstall.

The flags are taken out of the .pc file here, so that the test needs no pkg-config;
where there is one, it must give the same. Likewise the manual pages are read by
groff only where it is there. The version must be the same in each place that has it.

What is installed is for this machine, or for the TARGET that make hands on. The programs
of another machine run as make has them run, by scripts/emulated.
"""
import os
import re
import shutil
import subprocess
import tempfile
import unittest

from built import LINKED, TARGET

ROOT = os.path.dirname(os.path.dirname(os.path.abspath(__file__)))
# Each target, with the number by which a file of its code names the machine (ELF's e_machine).
NUMBERS = {"x86-64": 62, "aarch64": 183, "riscv64": 243}
HERE = os.uname().machine.replace("x86_64", "x86-64")
OWN = HERE if HERE in NUMBERS else "x86-64"
FOR = TARGET or OWN
NATIVE = FOR == HERE
COMPILER = "gcc" if NATIVE else FOR.replace("x86-64", "x86_64") + "-linux-gnu-gcc"
CODE = "" if NATIVE else f".{FOR}"
# What is installed is that of dist/, or, where make was told so, what was just built.
FROM = os.environ.get("FROM", "dist")
TO_MAKE = (f"FROM={FROM}", f"TARGET={TARGET}")
STRICT = ["-std=c99", "-Wall", "-Wextra", "-Wpedantic", "-Werror", "-static"]
INSTALLED = {
    "bin/replay": 0o755,
    "include/harpjuniper.h": 0o644,
    "lib/libharpjuniper.a": 0o644,
    "lib/pkgconfig/harpjuniper.pc": 0o644,
    "share/man/man1/replay.1": 0o644,
    "share/man/man3/harpjuniper.3": 0o644,
}


def read(path):
    with open(os.path.join(ROOT, path), encoding="utf-8") as file:
        return file.read()


def octets(path):
    with open(os.path.join(ROOT, path), "rb") as file:
        return file.read()


def machines(path):
    """The numbers of the machines of a program or of an archive's objects."""
    found = re.findall(rb"(?:^|`\n)\x7fELF.{14}(..)", octets(path), re.S)
    return {int.from_bytes(number, "little") for number in found}


VERSION = read("VERSION").strip()


def make(*words, folder=ROOT, **variables):
    """make without what a make that runs this test has put into the environment."""
    kept = {name: value for name, value in os.environ.items()
            if name not in ("MAKEFLAGS", "MFLAGS", "MAKELEVEL", "MAKEOVERRIDES", "DESTDIR", "PREFIX", "TARGET", "FROM")}
    kept |= variables
    return subprocess.run(["make", *words], cwd=folder, env=kept, capture_output=True, text=True, check=False)


def variables_of(pc):
    return dict(re.findall(r"^(\w+)=(.*)$", pc, re.M))


def flags_of(pc):
    """What pkg-config --cflags --libs gives, by its rules for our file."""
    variables = variables_of(pc)
    found = " ".join(re.findall(r"^(?:Cflags|Libs): (.*)$", pc, re.M))
    while "${" in found:
        found = re.sub(r"\$\{(\w+)\}", lambda name: variables[name[1]], found)
    return found.split()


def program_of(page):
    """The example of a manual page, as C."""
    found = re.search(r"^\.EX\n(#include.*?)^\.EE$", page, re.M | re.S)
    return found[1].replace(r"\e", "\\").replace(r"\-", "-")


# Every manual page of the source; two of them are installed.
PAGES = sorted(os.path.join("man", name) for name in os.listdir(os.path.join(ROOT, "man")))


class Install(unittest.TestCase):
    PREFIX = "/usr/local"
    WORDS = TO_MAKE

    def setUp(self):
        folder = tempfile.TemporaryDirectory()
        self.addCleanup(folder.cleanup)
        self.root = os.path.join(folder.name, "image")
        self.work = folder.name
        self.make("install")

    def make(self, target):
        ended = make(target, f"DESTDIR={self.root}", *self.WORDS)
        self.assertEqual(ended.returncode, 0, ended.stderr)

    def path(self, name):
        return self.root + self.PREFIX + "/" + name

    def files(self):
        return {os.path.relpath(os.path.join(folder, name), self.root + self.PREFIX)
                for folder, _, names in os.walk(self.root) for name in names}

    def flags(self):
        """Each folder of the flags is below DESTDIR, as in a system root."""
        flags = flags_of(read(self.path("lib/pkgconfig/harpjuniper.pc")))
        return [flag[:2] + self.root + flag[2:] if flag[:2] in ("-I", "-L") else flag for flag in flags]

    def output_of(self, source):
        """Compiled against what is installed, and run."""
        program = os.path.join(self.work, "program")
        words = [COMPILER, *STRICT, source, *self.flags(), "-o", program + CODE]
        ended = subprocess.run(words, cwd=self.work, capture_output=True, text=True, check=False)
        self.assertEqual(ended.returncode, 0, ended.stderr)
        if not NATIVE:
            shutil.copy(os.path.join(ROOT, "scripts/emulated"), program)
        return subprocess.run([program], check=True, capture_output=True, text=True).stdout

    def test_the_files(self):
        self.assertEqual(self.files(), set(INSTALLED))
        for name, mode in INSTALLED.items():
            self.assertEqual(os.stat(self.path(name)).st_mode & 0o777, mode, name)
        for name, source in (("bin/replay", f"{LINKED}/replay{CODE}"),
                             ("include/harpjuniper.h", "include/harpjuniper.h"),
                             ("lib/libharpjuniper.a", f"{FROM}/{FOR}/libharpjuniper.a"),
                             ("share/man/man1/replay.1", "man/replay.1"),
                             ("share/man/man3/harpjuniper.3", "man/harpjuniper.3")):
            self.assertEqual(octets(self.path(name)), octets(source), name)

    def test_whose_code_it_is(self):
        for name in ("bin/replay", "lib/libharpjuniper.a"):
            self.assertEqual(machines(self.path(name)), {NUMBERS[FOR]}, name)
        pc = read(self.path("lib/pkgconfig/harpjuniper.pc"))
        self.assertEqual(variables_of(pc)["target"], FOR)
        self.assertRegex(pc, rf"(?m)^Description: .*, {FOR} code$")

    def test_the_flags(self):
        pc = read(self.path("lib/pkgconfig/harpjuniper.pc"))
        self.assertNotIn("@", pc)
        self.assertNotIn(self.root, pc)
        self.assertEqual(flags_of(pc), [f"-I{self.PREFIX}/include", f"-L{self.PREFIX}/lib", "-lharpjuniper"])

    @unittest.skipUnless(shutil.which("pkg-config"), "there is no pkg-config")
    def test_pkg_config(self):
        def pkg_config(*words):
            below = dict(os.environ, PKG_CONFIG_PATH=self.path("lib/pkgconfig"), PKG_CONFIG_SYSROOT_DIR=self.root)
            return subprocess.run(["pkg-config", *words, "harpjuniper"], env=below, check=True,
                                  capture_output=True, text=True).stdout.split()
        self.assertEqual(pkg_config("--cflags", "--libs"), self.flags())
        self.assertEqual(pkg_config("--modversion"), [VERSION])
        self.assertEqual(pkg_config("--variable=target"), [FOR])

    def test_the_examples_against_what_is_installed(self):
        for name in ("flight_loop", "flight_batch", "settings_batch"):
            output = self.output_of(os.path.join(ROOT, f"examples/{name}.c"))
            self.assertEqual(output, read(f"examples/{name}.expected"))

    def test_the_header_as_c99_and_as_cpp11(self):
        for words in (["gcc", "-std=c99"], ["g++", "-std=c++11", "-x", "c++"]):
            words += ["-Wall", "-Wextra", "-Wpedantic", "-Werror", *self.flags()[:1], "-fsyntax-only",
                      os.path.join(ROOT, "tests/header_clean.c")]
            ended = subprocess.run(words, capture_output=True, text=True, check=False)
            self.assertEqual((ended.returncode, ended.stderr), (0, ""))

    def test_the_example_of_the_manual(self):
        source = os.path.join(self.work, "manual.c")
        with open(source, "w", encoding="ascii") as file:
            file.write(program_of(read(self.path("share/man/man3/harpjuniper.3"))))
        self.assertEqual(self.output_of(source), "ports 8, slot 7, hop count 63\n")

    def test_the_program(self):
        if not NATIVE:
            os.rename(self.path("bin/replay"), self.path("bin/replay" + CODE))
            shutil.copy(os.path.join(ROOT, "scripts/emulated"), self.path("bin/replay"))
        output = subprocess.run([self.path("bin/replay")], input="class 0a04090f\n", check=True,
                                capture_output=True, text=True).stdout
        self.assertEqual(output, "class 0a04090f = 2\n")

    def test_uninstall(self):
        other = self.path("lib/other.a")
        with open(other, "w", encoding="ascii"):
            pass
        self.make("uninstall")
        self.assertEqual(self.files(), {"lib/other.a"})


class OtherPrefix(Install):
    """The same with a prefix of one's own."""
    PREFIX = "/opt/harpjuniper"
    WORDS = (f"PREFIX={PREFIX}", *TO_MAKE)


class Targets(unittest.TestCase):
    """What make does for the TARGET that it is told, on the command line or in the environment."""

    def setUp(self):
        folder = tempfile.TemporaryDirectory()
        self.addCleanup(folder.cleanup)
        self.root = folder.name

    def test_each_is_installed(self):
        for target, number in NUMBERS.items():
            image = os.path.join(self.root, target)
            ended = make("install", f"DESTDIR={image}", FROM=FROM, TARGET=target)
            self.assertEqual(ended.returncode, 0, ended.stderr)
            installed = os.path.join(image, "usr/local")
            self.assertEqual(octets(f"{installed}/lib/libharpjuniper.a"), octets(f"{FROM}/{target}/libharpjuniper.a"))
            self.assertEqual(machines(f"{installed}/lib/libharpjuniper.a"), {number})
            self.assertEqual(machines(f"{installed}/bin/replay"), {number})
            self.assertEqual(variables_of(read(f"{installed}/lib/pkgconfig/harpjuniper.pc"))["target"], target)

    def test_what_an_archive_is_made_of(self):
        """Where one of these is newer, and no other, make would compile the modules anew."""
        made_of = ("build/modules/kept", "scripts/lower", "scripts/bitcode.py", "include/harpjuniper.h")
        for target in ("aarch64", "riscv64"):
            for newer in made_of:
                others = ("build/x86-64/libharpjuniper.a", *(name for name in made_of if name != newer))
                old = [word for name in others for word in ("-o", name)]
                ended = make("-n", *old, "-W", newer, "archive", f"TARGET={target}")
                self.assertEqual(ended.returncode, 0, ended.stderr)
                self.assertIn(f"scripts/lower {target} ", ended.stdout, newer)

    def test_there_is_no_such_target(self):
        for target in ("sparc", "x86_64", "x86-64 riscv64", "x86-64 x86-64", "riscv64 sparc", "riscv64 "):
            for words, variables in (((f"TARGET={target}",), {}), ((), {"TARGET": target})):
                for goal in ("archive", "install"):
                    ended = make(goal, f"DESTDIR={self.root}", *words, **variables)
                    says = f'there is no target "{target}": TARGET is x86-64, aarch64 or riscv64'
                    self.assertNotEqual(ended.returncode, 0, target)
                    self.assertIn(says, ended.stderr)
        self.assertEqual(os.listdir(self.root), [])


class ReadmesMakefile(unittest.TestCase):
    """The Makefile of the README, for a program that is built on another machine than the board."""
    COMPILER = FOR.replace("x86-64", "x86_64") + "-linux-gnu-gcc"

    @unittest.skipUnless(shutil.which("pkg-config") and shutil.which(COMPILER), "there is no pkg-config or compiler")
    def test_it_builds_the_first_program(self):
        with tempfile.TemporaryDirectory() as folder:
            prefix = os.path.join(folder, "prefix")
            ended = make("install", f"PREFIX={prefix}", *TO_MAKE)
            self.assertEqual(ended.returncode, 0, ended.stderr)
            for name, language in (("Makefile", "make"), ("first.c", "c")):
                with open(os.path.join(folder, name), "w", encoding="utf-8") as file:
                    file.write(re.search(rf"^```{language}\n(.*?)^```$", read("README.md"), re.M | re.S)[1])
            ended = make("first", f"TARGET={FOR}", f"HARPJUNIPER={prefix}", folder=folder)
            self.assertEqual(ended.returncode, 0, ended.stderr)
            self.assertEqual(machines(os.path.join(folder, "first")), {NUMBERS[FOR]})


class Version(unittest.TestCase):
    def test_its_form(self):
        self.assertRegex(VERSION, r"^[0-9]+\.[0-9]+\.[0-9]+$")

    def test_the_header(self):
        header = read("include/harpjuniper.h")
        parts = [re.search(rf"^#define HJ_VERSION_{part} ([0-9]+)$", header, re.M)[1]
                 for part in ("MAJOR", "MINOR", "PATCH")]
        self.assertEqual(".".join(parts), VERSION)
        self.assertEqual(re.findall(r'^#define HJ_VERSION "(.*)"$', header, re.M), [VERSION])

    def test_the_pages(self):
        for page in PAGES:
            self.assertEqual(re.findall(r'^\.TH .*"Harpjuniper ([0-9.]+)"', read(page), re.M), [VERSION])

    def test_the_conformance_statement(self):
        self.assertIn(f"| Implementation version | {VERSION} (", read("docs/PICS.md"))

    def test_the_news(self):
        self.assertRegex(read("NEWS.md"), rf"(?m)^## [0-9-]+: {re.escape(VERSION)}, ")


class Pages(unittest.TestCase):
    PAGE = read("man/harpjuniper.3")

    def test_every_call_is_declared_and_described(self):
        synopsis, described = self.PAGE.split(".SH DESCRIPTION")
        for name in read("exports.txt").split():
            self.assertRegex(synopsis, rf"\b{name}\(", name)
            self.assertRegex(described, rf"\.BI? {name}\(", name)

    def test_every_accessor_is_named(self):
        for name in re.findall(r"^static inline [\w ]+[ *](hj_\w+)\(", read("include/harpjuniper.h"), re.M):
            self.assertRegex(self.PAGE, rf"\b{name}(?: \(\)| \"\(\)|\()")

    def test_each_refusal_has_its_number(self):
        header = read("include/harpjuniper.h")
        refusals = header[header.index("#define HJ_DONE"):header.index("/* The local half")]
        found = re.findall(r"^#define (HJ_\w+) ([0-9]+)", refusals, re.M)
        self.assertEqual(len(found), 32)
        for name, number in found:
            self.assertRegex(self.PAGE, rf"(?m)^ ?{number} {name}  ", name)

    def test_every_other_constant_is_named(self):
        for name in re.findall(r"^#define (HJ_(?:IN|OUT|FORW|CAPABLE|STAMP)_\w+) ", read("include/harpjuniper.h"), re.M):
            self.assertIn(name, self.PAGE)

    @unittest.skipUnless(shutil.which("groff"), "there is no groff")
    def test_groff_has_no_warning(self):
        for page in PAGES:
            ended = subprocess.run(["groff", "-man", "-ww", "-z", os.path.join(ROOT, page)],
                                   capture_output=True, text=True, check=False)
            self.assertEqual((ended.returncode, ended.stderr), (0, ""))


class WithoutRt(unittest.TestCase):
    """A copy of the tree as it is cloned, with no build/ and a PATH without rt."""

    def setUp(self):
        folder = tempfile.TemporaryDirectory()
        self.addCleanup(folder.cleanup)
        # apt runs its helpers as a user of its own, which has to find them on this PATH
        os.chmod(folder.name, 0o755)
        self.root = os.path.join(folder.name, "clone")
        shutil.copytree(ROOT, self.root, ignore=shutil.ignore_patterns(".git", "build", "target", "crates"))
        path = os.path.join(folder.name, "bin")
        os.mkdir(path)
        for place in reversed(os.environ["PATH"].split(os.pathsep)):
            for name in os.listdir(place) if os.path.isdir(place) else ():
                link = os.path.join(path, name)
                if os.path.lexists(link):
                    os.remove(link)
                if name != "rt":
                    os.symlink(os.path.join(place, name), link)
        self.path = path

    def make(self, *words):
        return make(*words, folder=self.root, PATH=self.path)

    def test_install(self):
        image = os.path.join(self.root, "image")
        ended = self.make("install", f"DESTDIR={image}", f"TARGET={TARGET}")
        self.assertEqual(ended.returncode, 0, ended.stderr)
        installed = os.path.join(image, "usr/local/lib/libharpjuniper.a")
        self.assertEqual(octets(installed), octets(f"dist/{FOR}/libharpjuniper.a"))
        self.assertEqual(machines(installed), {NUMBERS[FOR]})

    def test_rehearsal(self):
        ended = self.make("rehearsal", f"TARGET={TARGET}")
        self.assertEqual(ended.returncode, 0, ended.stderr)
        self.assertIn("ledger", ended.stdout)

    def test_what_needs_rt_says_so(self):
        for words in (["archive"], ["archive", "TARGET=riscv64"], ["archives"], ["release"],
                      ["install", "FROM=build"], ["install", "FROM=build", "TARGET=aarch64"]):
            ended = self.make(*words)
            self.assertNotEqual(ended.returncode, 0, words)
            self.assertIn("there is no rt", ended.stderr, words)

    def test_from_elsewhere(self):
        ended = self.make("install", "FROM=nowhere")
        self.assertNotEqual(ended.returncode, 0)
        self.assertIn("FROM is dist or build", ended.stderr)


if __name__ == "__main__":
    unittest.main()
