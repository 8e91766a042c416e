#!/usr/bin/env python3
"""The scripts by which the proved code is compiled for targets other than x86-64, on small
trees: with a stand-in for Rattle's kit, and with one for its clang.
"""
import os
import shutil
import subprocess
import sys
import unittest

from tree import ROOT, Tree

sys.path.insert(0, os.path.join(ROOT, "scripts"))
import bitcode  # stands beside the script that uses it

# make hands its TARGET on in the environment; these scripts are told theirs.
os.environ.pop("TARGET", None)

# What the kit's clang answers: its words, a line of its input, and a status of its own.
ANSWERS = """#!/bin/sh
for word; do printf '<%s>\\n' "$word"; done
read -r line && printf '%s\\n' "$line"
echo a complaint >&2
exit 7
"""
CALL = ("-c", "two words", "", "*", "-x", "ir", "module.bc", "-o", "module.o")


def text_of(*path):
    with open(os.path.join(*path), encoding="utf-8") as file:
        return file.read()


def answer_of(program, *words, folder, **more):
    """Status, standard output and standard error, of a call in that folder."""
    ended = subprocess.run([program, *words], cwd=folder, input="a line\n", capture_output=True, text=True,
                           check=False, timeout=60, **more)
    return ended.returncode, ended.stdout, ended.stderr


class Toolchain(Tree):
    """scripts/toolchain on a kit of a few files, which `rt doc` leads to."""

    TOOLS = ("env", "bash", "sh", "dirname", "mkdir", "ln", "rm", "cp")

    def setUp(self):
        super().setUp()
        self.folder = os.path.join(self.root, "made", "our tools")
        self.write("kit/KIT-ID", "1\n")
        self.write("kit/START-HERE.md", "a guide\n")
        self.write("kit/bin/rattle", "prover\n", 0o755)
        self.write("kit/toolchain/lib/deep/libc.a", "library\n")
        self.write("kit/toolchain/notes", "notes\n")
        self.write("kit/toolchain/bin/llvm-ar", "ar\n", 0o755)
        self.write("kit/toolchain/bin/clang", ANSWERS, 0o755)
        self.write("bin/rt", f"#!/bin/sh\n[ $1 = doc ] && echo {self.root}/kit/START-HERE.md\n", 0o755)
        for tool in self.TOOLS:
            os.symlink(shutil.which(tool), os.path.join(self.root, "bin", tool))

    def toolchain(self, *words):
        path = os.path.join(self.root, "bin")
        return self.run_script(os.path.join(ROOT, "scripts/toolchain"), *words, path=path)

    def made(self):
        self.assertEqual(self.toolchain(self.folder), (0, ""))
        return os.path.join(self.folder, "bin")

    def of_the_kit(self):
        """Each file and folder of the kit: its kind, when it was written, and what is in it."""
        found = {}
        for folder, _, names in os.walk(os.path.join(self.root, "kit")):
            for name in (".", *names):
                path = os.path.join(folder, name)
                state = os.stat(path)
                found[path] = (state.st_mode, state.st_mtime_ns, name == "." or text_of(path))
        return found

    def test_all_is_links_but_the_clang(self):
        self.made()
        links, files = {}, []
        for folder, folders, names in os.walk(self.folder):
            for path in (os.path.join(folder, name) for name in folders + names):
                name = os.path.relpath(path, self.folder)
                if os.path.islink(path):
                    links[name] = os.readlink(path)
                elif not os.path.isdir(path):
                    files.append(name)
        self.assertEqual(files, ["bin/clang"])
        tools = os.path.join(self.root, "kit/toolchain")
        expected = {name: os.path.join(tools, name) for name in ("lib", "notes", "bin/llvm-ar")}
        expected["bin/kits-clang"] = os.path.join(tools, "bin/clang")
        self.assertEqual(links, expected)

    def test_its_clang_keeps_and_does_the_same(self):
        tools = self.made()
        clang = os.path.join(tools, "clang")
        self.assertEqual(text_of(clang), text_of(ROOT, "scripts/keeping-clang"))
        self.write("module.bc", "the module\n")
        kits = os.path.join(self.root, "kit/toolchain/bin/clang")
        self.assertEqual(answer_of(clang, *CALL, folder=self.root), answer_of(kits, *CALL, folder=self.root))
        self.assertEqual(text_of(tools, "kept/module.bc"), "the module\n")
        self.assertEqual(text_of(tools, "kept/clang"), f'#!/bin/sh\nexec "{kits}" "$@"\n')
        kept = os.path.join(tools, "kept/clang")
        self.assertEqual(answer_of(kept, *CALL, folder=self.root), answer_of(kits, *CALL, folder=self.root))

    def test_the_kit_is_not_written_to(self):
        before = self.of_the_kit()
        for _ in range(2):
            clang = os.path.join(self.made(), "clang")
            self.write("module.bc", "the module\n")
            self.assertEqual(answer_of(clang, *CALL, folder=self.root)[0], 7)
        self.assertEqual(self.of_the_kit(), before)

    def test_it_is_made_anew(self):
        tools = self.made()
        self.write("made/our tools/stray", "of an earlier kit\n")
        os.symlink(os.path.join(self.root, "kit/gone"), os.path.join(self.folder, "gone"))
        os.mkdir(os.path.join(tools, "kept"))
        self.write("kit/toolchain/later", "new in the kit\n")
        self.made()
        self.assertEqual(sorted(os.listdir(self.folder)), ["bin", "later", "lib", "notes"])
        self.assertEqual(sorted(os.listdir(tools)), ["clang", "kits-clang", "llvm-ar"])

    def test_a_folder_that_is_named_from_here(self):
        words = (os.path.join(ROOT, "scripts/toolchain"), "build/tools")
        ended = answer_of(*words, folder=self.root, env={"PATH": os.path.join(self.root, "bin")})
        self.assertEqual(ended, (0, "", ""))
        self.assertEqual(text_of(self.root, "build/tools/notes"), "notes\n")
        self.assertEqual(text_of(self.root, "build/tools/bin/llvm-ar"), "ar\n")

    def refused(self, says, *words):
        """With a message, and with a folder that was there as it was."""
        self.write("made/our tools/stray", "of an earlier kit\n")
        status, output = self.toolchain(*words)
        self.assertEqual(status, 1, output)
        self.assertIn(f"toolchain: FAILED: {says}\n", output)
        self.assertEqual(os.listdir(self.folder), ["stray"])

    def test_no_rt(self):
        self.write("bin/rt", "#!/bin/sh\necho what is that >&2\nexit 2\n", 0o755)
        self.refused("there is no rt that says where its kit is", self.folder)
        os.remove(os.path.join(self.root, "bin/rt"))
        self.refused("there is no rt that says where its kit is", self.folder)

    def test_no_clang_in_the_kit(self):
        clang = "toolchain/bin/clang"
        os.chmod(os.path.join(self.root, "kit", clang), 0o644)
        self.refused(f"the kit of rt has no {clang}", self.folder)
        os.remove(os.path.join(self.root, "kit", clang))
        self.refused(f"the kit of rt has no {clang}", self.folder)

    def test_the_kit_itself(self):
        tools = os.path.join(self.root, "kit/toolchain")
        status, output = self.toolchain(tools)
        self.assertEqual(status, 1)
        self.assertIn(f"toolchain: FAILED: {tools} is the toolchain of the kit itself", output)
        self.assertEqual(text_of(tools, "notes"), "notes\n")

    def test_other_words(self):
        for words in ((), (self.folder, self.folder)):
            self.refused("usage: toolchain FOLDER", *words)


class KeepingClang(Tree):
    """scripts/keeping-clang beside a link to a stand-in for the kit's clang."""

    def setUp(self):
        super().setUp()
        self.bin = os.path.join(self.root, "our kit/bin")
        self.kits = os.path.join(self.root, "kit/bin/clang")
        self.write("our kit/bin/clang", text_of(ROOT, "scripts/keeping-clang"), 0o755)
        self.write("kit/bin/clang", ANSWERS, 0o755)
        os.symlink(self.kits, os.path.join(self.bin, "kits-clang"))
        self.write("work/module.bc", "the module\n")

    def same(self, *words, **more):
        """Asks that both answer alike."""
        folder = os.path.join(self.root, "work")
        ours = answer_of(os.path.join(self.bin, "clang"), *words, folder=folder, **more)
        self.assertEqual(ours, answer_of(self.kits, *words, folder=folder, **more))
        self.assertEqual(ours[0], 7)

    def kept(self, words):
        """Asks that what was kept is of a call with these words."""
        self.assertEqual(sorted(os.listdir(os.path.join(self.bin, "kept"))), ["clang", "module.bc", "words"])
        self.assertEqual(text_of(self.bin, "kept/module.bc"), text_of(self.root, "work/module.bc"))
        self.assertEqual(text_of(self.bin, "kept/words"), "".join(word + "\n" for word in words))
        self.assertEqual(text_of(self.bin, "kept/clang"), f'#!/bin/sh\nexec "{self.kits}" "$@"\n')
        self.assertTrue(os.access(os.path.join(self.bin, "kept/clang"), os.X_OK))

    def test_the_same_answer(self):
        self.same(*CALL)
        self.kept(CALL)

    def test_an_empty_environment(self):
        self.same(*CALL, env={})
        self.kept(CALL)

    def test_the_last_call_is_kept(self):
        self.same(*CALL)
        self.write("work/module.bc", "another module\n")
        self.same("-O3", *CALL, env={})
        self.kept(("-O3", *CALL))

    def test_a_module_that_is_named_by_its_path(self):
        words = ("-c", os.path.join(self.root, "work/module.bc"))
        self.same(*words)
        self.kept(words)

    def test_a_call_without_a_module(self):
        for words in (("--version",), (), ("-c", "main.c", "-o", "main.o"), ("module.bc.o", ".bcd")):
            self.same(*words)
            self.same(*words, env={})
            self.assertEqual(sorted(os.listdir(self.bin)), ["clang", "kits-clang"])

    def test_a_module_that_cannot_be_kept(self):
        status, output, complaint = answer_of(os.path.join(self.bin, "clang"), *CALL, folder=self.root)
        self.assertEqual((status, output), (2, ""))
        self.assertIn("module.bc", complaint)


class Compile(Tree):
    """scripts/compile with stand-ins for rt, its prover and the kit's clang."""

    def setUp(self):
        super().setUp()
        for script in ("compile", "kit.py", "toolchain", "keeping-clang"):
            self.copy_script(script)
        self.write("crates.txt", "user: pair\nlow:\npair: low\nfree staticlib: pair\n")
        os.makedirs(os.path.join(self.root, "crates/free"))
        self.write("kit/START-HERE.md", "a guide\n")
        self.write("kit/toolchain/bin/clang", '#!/bin/sh\necho "$*" >made\n', 0o755)
        self.prover("echo module >module.bc; $tools/bin/clang -x ir module.bc -o module.o; cp made $made; echo logic=proved")
        self.write("bin/rt", f"#!/bin/sh\n[ $1 = doc ] && echo {self.root}/kit/START-HERE.md\n", 0o755)

    def prover(self, body):
        self.write("kit/bin/rattle", f"""#!/bin/sh
echo "$PWD $*" >{self.root}/called
for word; do
    [ "$before" != --toolchain ] || tools=$word
    [ "$before" != -o ] || made=$word
    before=$word
done
echo a line
cd {self.root}
{body}
""", 0o755)

    def compile(self, *words):
        path = os.path.join(self.root, "bin") + os.pathsep + os.environ["PATH"]
        return self.run_script(os.path.join(self.root, "scripts/compile"), *words, path=path)

    def test_it_compiles_and_keeps(self):
        made, kept = os.path.join(self.root, "free.a"), os.path.join(self.root, "kept/free")
        self.write("kept/free/stray", "of an earlier run")
        self.assertEqual(self.compile("free", made, kept), (0, "logic=proved\n"))
        self.assertEqual(text_of(made), "-x ir module.bc -o module.o\n")
        self.assertEqual(sorted(os.listdir(kept)), ["clang", "module.bc", "words"])
        self.assertEqual(text_of(kept, "module.bc"), "module\n")
        called = text_of(self.root, "called")
        kits, rlib = f"{self.root}/kit", f"{self.root}/crates/{{}}/out/rlib"
        self.assertTrue(called.startswith(
            f"{self.root}/crates/free build --crate-name free src/lib.rt --extern std={kits}/rlibs/std.rlib -L dependency={kits}/rlibs "
            f"--extern pair={rlib.format('pair')}/pair.rlib -L dependency={rlib.format('low')} -L dependency={rlib.format('pair')} "), called)
        self.assertIn(" --crate-type staticlib --cpu x86-64 --backend llvm --toolchain ", called)

    def test_no_link_is_left(self):
        self.compile("free", os.path.join(self.root, "free.a"), os.path.join(self.root, "kept"))
        links = [name for folder, folders, names in os.walk(self.root) for name in folders + names
                 if os.path.islink(os.path.join(folder, name))]
        self.assertEqual(links, [])

    def test_what_is_not_proved(self):
        self.prover("echo not proved; exit 1")
        status, output = self.compile("free", os.path.join(self.root, "free.a"), os.path.join(self.root, "kept"))
        self.assertEqual((status, output), (1, "a line\nnot proved\ncompile: FAILED: free\n"))
        self.assertFalse(os.path.exists(os.path.join(self.root, "kept")))

    def test_other_words(self):
        self.assertEqual(self.compile("pair", "pair.a", "kept"), (1, "compile: FAILED: crates.txt has no static library pair\n"))
        for words in ((), ("free",), ("free", "free.a"), ("free", "free.a", "kept", "more")):
            self.assertEqual(self.compile(*words), (1, "usage: compile CRATE ARCHIVE KEPT\n"))


LAYOUTS = {
    "x86-64": "e-m:e-p270:32:32-p271:32:32-p272:64:64-i64:64-i128:128-f80:128-n8:16:32:64-S128",
    "aarch64": "e-m:e-p270:32:32-p271:32:32-p272:64:64-i8:8:32-i16:16:32-i64:64-i128:128-n32:64-S128-Fn32",
    "riscv64": "e-m:e-p:64:64-i64:64-i128:128-n32:64-S128",
}


class Bits:
    """A stream of bits as LLVM writes one: the lowest bit of an octet first."""

    def __init__(self):
        self.all, self.count = 0, 0

    def number(self, value, width):
        self.all |= value << self.count
        self.count += width

    def chunks(self, value, width):
        """In chunks, of which each but the last has its highest bit set."""
        half = 1 << width - 1
        while value >= half:
            self.number(value % half | half, width)
            value //= half
        self.number(value, width)

    def record(self, width, code, values):
        self.number(3, width)
        for value in (code, len(values), *values):
            self.chunks(value, 6)

    def block(self, width, name, inside, own_width):
        """Its head says how many words are inside."""
        self.number(1, width)
        self.chunks(name, 8)
        self.chunks(own_width, 4)
        octets = inside.octets()
        self.number(0, -self.count % 32)
        self.number(len(octets) // 4, 32)
        self.number(int.from_bytes(octets, "little"), 8 * len(octets))

    def octets(self):
        return self.all.to_bytes((self.count + 31) // 32 * 4, "little")


def bitcode_of(layout, version=2, begins=None, own_width=3):
    """The beginning of a module: blocks that are none, a version, a triple and the layout.
    The blocks hold a record that is like a layout; begins is a number in place of a record's."""
    other, module, file = Bits(), Bits(), Bits()
    other.record(5, 3, b"E-p:32:32")
    module.record(own_width, 1, [version])
    module.block(own_width, 0, other, 2)
    if begins is not None:
        module.number(begins, own_width)
    module.record(own_width, 2, b"x86_64-unknown-linux-gnu")
    if layout is not None:
        module.record(own_width, 3, layout.encode())
    file.block(2, 13, other, 5)
    file.block(2, 8, module, own_width)
    return b"BC\xc0\xde" + file.octets()


class Bitcode(Tree):
    """scripts/bitcode.py on modules that were written here."""

    def layout_of(self, octets):
        path = os.path.join(self.root, "module.bc")
        with open(path, "wb") as file:
            file.write(octets)
        return bitcode.layout_of(path)

    def unreadable(self, says, octets):
        with self.assertRaises(bitcode.Unreadable) as refusal:
            self.layout_of(octets)
        self.assertEqual(str(refusal.exception), says)

    def test_the_layout(self):
        for layout in (*LAYOUTS.values(), "e", "E-p:32:32"):
            for own_width in (3, 4, 7):
                self.assertEqual(self.layout_of(bitcode_of(layout, own_width=own_width)), layout)

    def test_a_number_of_many_chunks(self):
        self.assertEqual(self.layout_of(bitcode_of("e-p:64:64", version=2**40 + 5)), "e-p:64:64")

    def test_no_bitcode(self):
        for octets in (b"", b"BC", b"BC\xc0", b"define i32 @hj_class()", b"\xde\xc0\x17\x0b" + bytes(32)):
            self.unreadable("it is no bitcode", octets)

    def test_cut_short(self):
        whole = bitcode_of(LAYOUTS["x86-64"])
        for length in range(4, len(whole) - 4, 4):
            self.unreadable("it ends before its data layout", whole[:length])

    def test_no_layout(self):
        """The module ends, or has what this reader has not: an abbreviation or its use."""
        for begins in (0, 2, 4):
            says = "its data layout is not where it is expected"
            self.unreadable(says, bitcode_of(LAYOUTS["x86-64"], begins=begins))
        with self.assertRaises(bitcode.Unreadable):
            self.layout_of(bitcode_of(None))

    def test_no_module(self):
        self.unreadable("it ends before its data layout", b"BC\xc0\xde")

    def test_no_file(self):
        with self.assertRaises(OSError):
            bitcode.layout_of(os.path.join(self.root, "module.bc"))


HEADER = """#include <stdint.h>
typedef uint64_t hj_answer;
typedef uint64_t hj_verdict;

/*
uint32_t hj_comment(uint32_t address);
*/
static inline uint32_t hj_within(uint32_t address)
{
    return hj_class(address);
}

uint16_t hj_checksum(const uint8_t *octets, size_t count);
uint32_t hj_class(uint32_t address);
uint32_t hj_board_words(void);
hj_answer hj_put(hj_board *board, const hj_mission *mission, hj_record *routes,
                 uint8_t *octets, const uint16_t *lengths,
                 uint32_t *words, hj_verdict *verdicts);
hj_verdict hj_echo(uint8_t slot, uint16_t port, uint32_t second, uint64_t mark);
"""

# A module in small, of the functions of the header. The attributes of rt's speak of
# inline-asm, which is no code.
MODULE = """; ModuleID = 'module.bc'
source_filename = "rattle"
target datalayout = "LAYOUT"
target triple = "x86_64-unknown-linux-gnu"

define internal noundef i32 @"octets::pair"(i8 noundef %a0, i8 noundef %a1) #0 {
  ret i32 0
}

define internal noundef zeroext i1 @"networks::in_net_10"(ptr noundef %a0) #0 {
  ret i1 false
}

define internal void @"address::class_of"(ptr noundef %a0, { i64, i64 } %a1) #0 {
  call void @llvm.trap()
  ret void
}

define noundef i16 @hj_checksum(ptr noundef %a0, i64 noundef %a1) #0 {
  ret i16 0
}

define noundef i32 @hj_class(i32 noundef %a0) #0 {
  ret i32 0
}

define noundef i32 @hj_board_words() #0 {
  ret i32 43
}

define noundef i64 @hj_put(PLACES) #0 {
  ret i64 0
}

define noundef i64 @hj_echo(i8 noundef %a0, i16 noundef %a1, i32 noundef %a2, i64 noundef %a3) #0 {
  ret i64 0
}

declare void @llvm.trap() #1

attributes #0 = { nounwind "probe-stack"="inline-asm" "target-cpu"="x86-64" }
attributes #1 = { cold noreturn nounwind memory(inaccessiblemem: write) }
"""
# The places of hj_put, as the module has them, and as they are handed on.
PLACES = ", ".join(f"ptr noundef %a{at}" for at in range(7))
ALIGNED = ", ".join(f"ptr noundef {aligned}%a{at}" for at, aligned in enumerate(
    ("align 4 ", "align 4 ", "align 4 ", "", "align 2 ", "align 4 ", "align 8 ")))
MODULE = MODULE.replace("PLACES", PLACES)
CLASS = "noundef i32 @hj_class(i32 noundef %a0) #0"

# The words by which rt calls its clang: before the module, and behind the object.
OWN_WORDS = ["--target=x86_64-unknown-linux-gnu", "-march=x86-64"]
BEFORE = ["-ffunction-sections", "-mllvm", "-trap-unreachable", "--no-default-config", "-Werror", "-c", "-x", "ir"]
BEHIND = ["-fPIC", "-O3"]
KITS_WORDS = [OWN_WORDS[0], "--sysroot=/kit/toolchain", *OWN_WORDS[1:], *BEFORE, "module.bc", "-o", "module.o", *BEHIND]
# The same, without the kit's folder.
PLAIN_WORDS = [*OWN_WORDS, *BEFORE, "module.bc", "-o", "module.o", *BEHIND]
INLINED = ["-mllvm", "-inline-threshold=100000"]
TARGETS_WORDS = {
    "aarch64": ["--target=aarch64-unknown-linux-gnu", "-march=armv8-a", "-mgeneral-regs-only", "-mstrict-align",
                "-ffixed-x18"],
    "riscv64": ["--target=riscv64-unknown-linux-gnu", "-march=rv64gc", "-mabi=lp64d"],
}

# Says the module, whose text stands beside it; or compiles one: keeps the words and the text
# that it is handed, and makes an object.
CLANG = """#!/bin/sh
FAILS
here=${0%/*} says=
printf '%s\\n' "$@" >"$here/called"
while [ $# -gt 1 ]; do
    case $1 in
    -emit-llvm) says=1 ;;
    ir) module=$2 ;;
    -o) object=$2 ;;
    esac
    shift
done
[ -f "$module" ] || { echo "there is no module" >&2; exit 1; }
if [ "$says" ]; then
    cat "$here/text"
else
    cp "$module" "$here/handed.ll" && echo code >"$object"
fi
"""


class Lower(Tree):
    """scripts/lower with a stand-in for clang, and a header of its own."""

    def lower(self, target, module=MODULE, own=LAYOUTS["x86-64"], layout=None, words=KITS_WORDS, fails="",
              header=HEADER, without=()):
        """Own is the layout of the module itself, and layout the one that clang says for the target. The
        files without are not there."""
        self.setUp()
        for script in ("lower", "bitcode.py"):
            self.copy_script(script)
        self.write("include/harpjuniper.h", header)
        self.write("kept/text", module.replace("LAYOUT", layout or LAYOUTS.get(target, "")))
        self.write("kept/words", "".join(word + "\n" for word in words))
        self.write("kept/clang", CLANG.replace("FAILS", fails), 0o755)
        with open(os.path.join(self.root, "kept/module.bc"), "wb") as file:
            file.write(bitcode_of(own))
        for name in without:
            os.remove(os.path.join(self.root, name))
        self.object = os.path.join(self.root, "made.o")
        script = os.path.join(self.root, "scripts/lower")
        return self.run_script(script, target, os.path.join(self.root, "kept"), self.object)

    def refused(self, *says, targets=tuple(TARGETS_WORDS), **more):
        """With a message, and with no object."""
        for target in targets:
            status, output = self.lower(target, **more)
            self.assertEqual(status, 1, output)
            self.assertTrue(output.startswith(f"lower: FAILED: {self.root}/kept: "), output)
            for words in says:
                self.assertIn(words.replace("TARGET", target), output)
            self.assertFalse(os.path.exists(self.object))

    def handed(self, target, **more):
        """The text that clang is handed to compile."""
        self.assertEqual(self.lower(target, **more), (0, ""))
        self.assertEqual(text_of(self.object), "code\n")
        return text_of(self.root, "kept/handed.ll")

    def expected(self, target):
        """The module's, but for the layout, the processor, and how what C lends is aligned."""
        text = MODULE.replace("LAYOUT", LAYOUTS[target]).replace(' "target-cpu"="x86-64"', "")
        return text.replace(PLACES, ALIGNED)

    def test_the_words(self):
        """Those of the kit's call but for the target, what is inlined, the module, the object and the kit."""
        for target, own in TARGETS_WORDS.items():
            self.handed(target)
            called = text_of(self.root, "kept/called").splitlines()
            source = called[called.index("ir") + 1]
            self.assertEqual(called, [*own, *INLINED, *BEFORE, source, "-o", self.object, *BEHIND])
            self.assertTrue(source.endswith(".ll"), source)
            self.assertFalse(os.path.exists(source))

    def test_more_words(self):
        """What rt adds is handed on."""
        words = [*OWN_WORDS, "-fno-plt", *PLAIN_WORDS[2:], "-fno-math-errno"]
        self.handed("riscv64", words=words)
        called = text_of(self.root, "kept/called").splitlines()
        self.assertEqual(called.count("-fno-plt"), 1)
        self.assertEqual(called[-3:], [*BEHIND, "-fno-math-errno"])

    def test_the_text_on_aarch64(self):
        self.assertEqual(self.handed("aarch64"), self.expected("aarch64"))

    def test_the_text_on_riscv64(self):
        """With what is promised of the upper bits, too; not of inner functions."""
        expected = self.expected("riscv64")
        for name, said, promised in (("checksum", "i16", "zeroext i16"), ("class", "i32", "signext i32"),
                                     ("board_words", "i32", "signext i32")):
            expected = expected.replace(f"define noundef {said} @hj_{name}(", f"define noundef {promised} @hj_{name}(")
        self.assertEqual(expected.count("ext i"), 4)
        self.assertEqual(self.handed("riscv64"), expected)

    def test_an_octet_that_is_answered(self):
        """C on riscv64 relies on its upper bits as well."""
        module = MODULE.replace(CLASS, CLASS.replace("i32 @", "i8 @"))
        header = HEADER.replace("uint32_t hj_class", "uint8_t hj_class")
        self.assertIn("define noundef i8 @hj_class(", self.handed("aarch64", module=module, header=header))
        self.assertIn("define noundef zeroext i8 @hj_class(", self.handed("riscv64", module=module, header=header))

    def test_the_processor_is_taken_out_everywhere(self):
        module = MODULE + 'attributes #2 = { "target-cpu"="x86-64" nounwind }\n'
        for target in TARGETS_WORDS:
            self.assertNotIn("target-cpu", self.handed(target, module=module))

    def test_another_processor(self):
        self.refused('the module has "target-cpu"', module=MODULE.replace('="x86-64"', '="x86-64-v3"'))

    def test_another_target(self):
        for target in ("sparc", "x86-64", "x86_64", ""):
            says = f'there is no target "{target}" to compile a module for: it is aarch64 or riscv64'
            self.refused(says, targets=[target])
            self.assertFalse(os.path.exists(os.path.join(self.root, "kept/called")))

    LAYOUT = LAYOUTS["riscv64"]
    OTHER_LAYOUTS = {
        "E" + LAYOUT[1:]: "order of octets big-endian, and not little-endian",
        LAYOUT[2:]: "order of octets big-endian, and not little-endian",
        LAYOUT.replace("p:64:64", "p:32:32"): "pointers 32 aligned to 32, and not 64 aligned to 64",
        LAYOUT.replace("p:64:64", "p:64:32"): "pointers 64 aligned to 32, and not 64 aligned to 64",
        LAYOUT + "-i8:16": "i8 aligned to 16, and not aligned to 8",
        LAYOUT + "-i16:8:16": "i16 aligned to 8, and not aligned to 16",
        LAYOUT + "-i32:64": "i32 aligned to 64, and not aligned to 32",
        LAYOUT.replace("i64:64", "i64:32:64"): "i64 aligned to 32, and not aligned to 64",
        LAYOUT.replace("-i64:64", ""): "i64 aligned to 32, and not aligned to 64",
        LAYOUT.replace("i128:128", "i128:64"): "i128 aligned to 64, and not aligned to 128",
        LAYOUT.replace("-i128:128", ""): "i128 aligned to unknown, and not aligned to 128",
        LAYOUT.replace("S128", "S64"): "stack aligned to 64, and not aligned to 128",
        LAYOUT.replace("-S128", ""): "stack aligned to unknown, and not aligned to 128",
    }

    def test_another_layout_of_the_module(self):
        for layout, says in self.OTHER_LAYOUTS.items():
            self.refused(f'the data layout of the module, "{layout}", has {says}', targets=["riscv64"], own=layout)

    def test_another_layout_of_the_target(self):
        for layout, says in self.OTHER_LAYOUTS.items():
            self.refused(f'the data layout of TARGET, "{layout}", has {says}', layout=layout)

    def test_no_layout(self):
        self.refused("data layout", own=None)

    def test_no_layout_of_the_target(self):
        self.refused("data layout", module=MODULE.replace('target datalayout = "LAYOUT"\n', ""))

    def test_a_face_that_C_may_not_be_handed(self):
        """A structure, what is not defined, extended or called otherwise, and what the header does not declare."""
        for face in ("{ i64, i64 } @hj_class(i32 noundef %a0) #0",
                     "noundef { i64, i64 } @hj_class(i32 noundef %a0) #0",
                     "void @hj_class(ptr noundef sret({ i64, i64 }) %a0) #0",
                     "i32 @hj_class(i32 noundef %a0) #0",
                     "noundef zeroext i32 @hj_class(i32 noundef %a0) #0",
                     "weak noundef i32 @hj_class(i32 noundef %a0) #0",
                     "fastcc noundef i32 @hj_class(i32 noundef %a0) #0",
                     "noundef i32 @class(i32 noundef %a0) #0",
                     "noundef i32 @hj_comment(i32 noundef %a0) #0",
                     "noundef i32 @hj_within(i32 noundef %a0) #0",
                     'noundef i32 @"address::class"(i32 noundef %a0) #0'):
            module = MODULE.replace(CLASS, face)
            self.refused(f"the header declares no such function: define {face} {{", module=module)

    def test_another_answer_or_number_of_parameters(self):
        for face in ("noundef i1 @hj_class(i32 noundef %a0) #0",
                     "noundef i16 @hj_class(i32 noundef %a0) #0",
                     "noundef i64 @hj_class(i32 noundef %a0) #0",
                     "noundef i128 @hj_class(i32 noundef %a0) #0",
                     "noundef ptr @hj_class(i32 noundef %a0) #0",
                     "noundef i32 @hj_class() #0",
                     "noundef i32 @hj_class(i32 noundef %a0, i32 noundef %a1) #0",
                     "noundef i32 @hj_class(i32 noundef %a0, ...) #0",
                     "noundef i32 @hj_class({ i64, i64 } noundef %a0) #0",
                     "noundef i32 @hj_class(ptr noundef byval({ i64, i64 }) %a0) #0"):
            module = MODULE.replace(CLASS, face)
            says = f"the header declares another function than: define {face} {{"
            self.refused(says, targets=["riscv64"], module=module)

    def test_another_parameter(self):
        """Of a number, and of a pointer."""
        for place in ("i1 noundef %a0", "i8 noundef %a0", "i16 noundef %a0", "i64 noundef %a0", "i128 noundef %a0",
                      "ptr noundef %a0", "[2 x i64] noundef %a0", "i32 %a0",
                      "i32 noundef signext %a0"):
            module = MODULE.replace(CLASS, CLASS.replace("i32 noundef %a0", place))
            self.refused("the header declares another parameter", place, "uint32_t", targets=["riscv64"], module=module)
        for place in ("i64 noundef %a3", "ptr %a3", "ptr noundef byval(%pair) %a3", "ptr noundef align 4 %a3"):
            module = MODULE.replace("ptr noundef %a3,", place + ",")
            self.refused("the header declares another parameter", place, "uint8_t *", targets=["riscv64"], module=module)

    def test_a_type_that_is_not_known(self):
        """In the header: by itself, behind a pointer, and as an answer."""
        for old, new, says in (("hj_class(uint32_t", "hj_class(hj_pair", ("parameter", "i32 noundef %a0", "hj_pair")),
                               ("hj_record *routes", "hj_pair *routes", ("parameter", "ptr noundef %a2", "hj_pair *")),
                               ("uint32_t hj_class", "unsigned hj_class", ("function", CLASS))):
            header = HEADER.replace(old, new)
            self.refused("the header declares another ", *says, targets=["riscv64"], header=header)

    def test_no_header(self):
        self.refused("include/harpjuniper.h", without=("include/harpjuniper.h",))

    def test_what_one_processor_has(self):
        for line, says in (('module asm ".globl hj_class"', "asm"),
                           ('  call void asm sideeffect "nop", ""()', "asm"),
                           ("declare i64 @llvm.x86.rdtsc()", "@llvm.x86."),
                           ('attributes #2 = { "target-features"="+sse2" }', '"target-features"'),
                           ('attributes #2 = { "tune-cpu"="generic" }', '"tune-cpu"'),
                           ("  %r = fadd double %a, %b", "double"),
                           ("  %r = add <4 x i32> %a, %b", "<4 x "),
                           ("@here = addrspace(270) global i32 0", "addrspace")):
            for target in ("aarch64", "riscv64"):
                self.refused(f"the module has {says}, which may be something else on {target}", targets=[target],
                             module=f"{MODULE}{line}\n")

    def test_other_words_of_rt(self):
        at = PLAIN_WORDS.index("-o")
        for words in (["--target=aarch64-unknown-linux-gnu", *PLAIN_WORDS[1:]],
                      [OWN_WORDS[0], "-march=x86-64-v3", *PLAIN_WORDS[2:]],
                      ["-march=x86-64", "--target=x86_64-unknown-linux-gnu", *PLAIN_WORDS[2:]],
                      ["-Wall", *PLAIN_WORDS],
                      PLAIN_WORDS[:at] + PLAIN_WORDS[at + 2:],
                      PLAIN_WORDS[:at],
                      ["c" if word == "ir" else word for word in PLAIN_WORDS],
                      [*OWN_WORDS, "-c", "-o", "module.o", "-x", "ir", "module.bc", *BEHIND],
                      [*OWN_WORDS, "-o", "module.o"],
                      OWN_WORDS, ["--version"], []):
            self.refused(f"rt calls clang otherwise than expected: {' '.join(words)}", targets=["riscv64"], words=words)

    def test_a_clang_that_fails(self):
        """Saying the module, and compiling it."""
        for call in ("*-emit-llvm*", "*made.o*"):
            fails = f'case "$*" in {call}) echo cannot do this >&2; exit 3 ;; esac'
            self.refused("clang ended with status 3:\ncannot do this\n", fails=fails)

    def test_a_file_that_was_not_kept(self):
        for name in ("kept/module.bc", "kept/words", "kept/clang"):
            self.refused(name, without=(name,))

    def test_nothing_kept(self):
        kept = os.path.join(self.root, "kept")
        words = ("riscv64", kept, os.path.join(self.root, "made.o"))
        status, output = self.run_script(os.path.join(ROOT, "scripts/lower"), *words)
        self.assertEqual(status, 1)
        self.assertTrue(output.startswith(f"lower: FAILED: {kept}: "), output)

    def test_usage(self):
        for words in ((), ("riscv64",), ("riscv64", "kept"), ("riscv64", "kept", "made.o", "more")):
            ended = self.run_script(os.path.join(ROOT, "scripts/lower"), *words)
            self.assertEqual(ended, (1, "usage: lower TARGET KEPT OBJECT\n"))


if __name__ == "__main__":
    unittest.main()
