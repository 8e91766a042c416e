"""What the gate costs, in seconds of the processor: user and system together.

Clocks differ from machine to machine and from hour to hour, so every cost is compared
with one proof of everything in the same run.

rt reports no such seconds. The kernel keeps them: a process has its own, and those of
the children that it has waited for. `rt ci` proves the crates and tries the wrong programs
side by side, each in a prover of its own, and the seconds of a prover are looked at ten
times a second while it runs, so each misses a tenth at most. What rt tries itself, one more
proof of each crate that has wrong programs among it, runs in folders of its own.

`rt ci` takes what an earlier run on this machine proved. Only where it says that it did
everything in this run is one proof of everything known. Of another run the seconds are
said, and nothing is compared.
"""
import os
import resource
import threading
from collections import defaultdict
from datetime import date

TICK = os.sysconf("SC_CLK_TCK")
INTERVAL = 0.1

# Proof, wrong programs and static libraries together, in proofs of everything.
BAR = 3
# The host tests, in proofs of everything.
HOST_BAR = 0.5
# How rt says that it took nothing from an earlier run.
ALL_DONE = "every proof and must-fail edit was done in this run"


def reaped():
    """What this process's children used up that have ended."""
    used = resource.getrusage(resource.RUSAGE_CHILDREN)
    return used.ru_utime + used.ru_stime


# ---- Processes


def read(pid, name):
    """A file of /proc, empty where the process has gone."""
    try:
        with open(f"/proc/{pid}/{name}", encoding="utf-8", errors="replace") as file:
            return file.read()
    except OSError:
        return ""


def children(pid):
    """Those of every thread."""
    try:
        threads = os.listdir(f"/proc/{pid}/task")
    except OSError:
        return []
    return [child for thread in threads for child in read(pid, f"task/{thread}/children").split()]


def used(pid):
    """The seconds of a process and of the children that it has waited for."""
    fields = read(pid, "stat").rpartition(")")[2].split()
    return sum(map(int, fields[11:15])) / TICK if fields else 0


def used_below(pid):
    """The same, with all that still runs below it."""
    return used(pid) + sum(used_below(child) for child in children(pid))


def folder_of(pid):
    """The folder that a process works in, empty where the process has gone."""
    try:
        return os.readlink(f"/proc/{pid}/cwd")
    except OSError:
        return ""


def provers(pid):
    """The provers at or below this process: of each its process, the crate that it works
    on, and whether on a wrong program."""
    words = read(pid, "cmdline").split("\0")
    if "--crate-name" in words and "rattle" in [os.path.basename(word) for word in words[:2]]:
        name = words[words.index("--crate-name") + 1]
        return [(pid, name, os.path.basename(folder_of(pid)).startswith("rt-edit"))]
    return [found for child in children(pid) for found in provers(child)]


# ---- One run of rt ci


class Meter:
    """Watches `rt ci`. Each crate and each wrong program has a prover of its own."""

    def __init__(self, pid):
        self.pid, self.whole = pid, False
        self.tried, self.seconds = {}, defaultdict(float)
        self.ended = threading.Event()
        self.thread = threading.Thread(target=self.watch, daemon=True)
        self.thread.start()

    def watch(self):
        while not self.ended.wait(INTERVAL):
            for prover, crate, wrong in provers(self.pid):
                self.tried.setdefault(prover, (crate, wrong))
                self.seconds[prover] = max(self.seconds[prover], used_below(prover))

    def see(self, line):
        """Takes a line of rt, whose last but one says whether all was done in this run."""
        if line.startswith("rt: ok"):
            self.whole = ALL_DONE in line

    def end(self):
        self.ended.set()
        self.thread.join()

    def by_crate(self):
        """For each crate its proof's seconds and those of its wrong programs."""
        found = defaultdict(lambda: [0.0, 0.0])
        for prover, (crate, wrong) in self.tried.items():
            found[crate][wrong] += self.seconds[prover]
        return found


# ---- The whole gate


class Cost:
    """What one gate cost; edits, archive and hosts are filled in as they are known."""

    def __init__(self, meter, total):
        self.total, self.whole, self.crates = total, meter.whole, meter.by_crate()
        self.proof = sum(proof for proof, _ in self.crates.values())
        self.edits = self.archive = self.hosts = 0.0

    def together(self):
        return self.proof + self.edits + self.archive

    def rows(self):
        """Each part's seconds, and whether they are of a run that proved everything."""
        return [
            ("rt ci, with its own tries", self.total),
            ("one proof of everything", self.proof if self.whole else None),
            ("wrong programs", self.edits),
            ("static libraries", self.archive),
            ("these three together", self.together() if self.whole else None),
            ("host tests", self.hosts),
        ]

    def in_proofs(self, seconds):
        return f"{seconds / self.proof:8.2f}" if self.whole and self.proof else ""

    def summary(self):
        lines = ["cost: seconds of the processor, and in proofs of everything"]
        for crate, (proof, edits) in sorted(self.crates.items(), key=lambda item: -sum(item[1])):
            lines.append(f"cost:   {crate:28}{proof:8.1f} proof {edits:8.1f} wrong programs, by rt ci")
        for name, seconds in self.rows():
            if seconds is not None:
                lines.append(f"cost: {name:30}{seconds:8.1f}{self.in_proofs(seconds)}")
        lines.append(f"cost: the bar for the three is {BAR}" if self.whole else
                     "cost: rt ci took proofs of an earlier run, so none of this is compared with a bar")
        return "\n".join(lines) + "\n"

    def page(self):
        """The tables of docs/COSTS.md."""
        lines = [f"{date.today()}, {os.uname().machine}, {os.cpu_count()} cores.", ""]
        lines += ["| Part | CPU seconds | In proofs |", "|---|---|---|"]
        lines += [f"| {name} | {seconds:.0f} | {self.in_proofs(seconds).strip()} |"
                  for name, seconds in self.rows() if seconds is not None]
        lines += ["", "| Crate | Proof | Wrong programs, by rt ci |", "|---|---|---|"]
        lines += [f"| `{crate}` | {proof:.1f} | {edits:.1f} |" for crate, (proof, edits) in sorted(self.crates.items())]
        return "\n".join(lines) + "\n"

    def over(self):
        """What costs more than it may, in words; empty where nothing does."""
        if self.whole and self.together() > BAR * self.proof:
            return f"proof, wrong programs and static libraries cost over {BAR} proofs"
        if self.whole and self.hosts > HOST_BAR * self.proof:
            return f"the host tests cost over {HOST_BAR} of a proof"
        return ""
