"""test_soak.py: the soak finds every fault of soak_faults.c, says the seed and
the call, and ends with status 1; without a fault, it finds none."""
import os
import subprocess

from built import LINKED

PROGRAM = f"{LINKED}/soak_faulty"
BOARD = "the words of the board"
MISSION = "the words of a mission's state"
SINGLE = "single calls answer otherwise"
LIST = "a list of a batch"
FAULTS = [
    "plain answers otherwise",             # a class
    "not the refusal that is due",         # wrong words, 21 for 16
    MISSION,                               # the word before the state
    f"beyond what was lent|{MISSION}",     # the word after it
    MISSION,                               # a call that only reads writes
    "not what the words say",              # waiting, one too few
    BOARD,                                 # a refused setting writes
    BOARD,                                 # a setting writes elsewhere
    "beyond what was lent",                # a read beyond the octets
    "the output's octets",                 # an output written by a refusal
    "the output's octets",                 # an octet behind the header
    "the octets lent to be read",          # the datagram changed
    MISSION,                               # a counter too low
    MISSION,                               # 17 counted
    f"odd onward half|{SINGLE}",           # 12 for 11
    # the ports that dropped theirs not told
    f"copies dropped, and not|not the ports that are due of a flood|{MISSION}|plain answers otherwise|{SINGLE}",
    "not what the list says",              # a search, 0 ones for none
    MISSION,                               # a search that writes
    "not what the list says",              # a route not up hides another
    f"{BOARD}|not the refusal that is due",  # a take that writes the board
    "not what the list says",              # a record that does not count
    "the records of the list",             # a search that writes the list
    "not the refusal that is due",         # 16 for 21
    "the output's octets",                 # a header for a port that took none
    f"the data begin elsewhere|{SINGLE}",  # one too far
    f"a header longer than is due|{SINGLE}",  # a rewritten header's octets, one too many
    "the output's octets",                 # 63 for the first hop count
    # rewritten, and not told as such
    f"plain answers otherwise|a one-octet address that left its domain|the output's octets|{SINGLE}",
    # kept, and told as rewritten; its control field may be longer than it need be
    f"a header rewritten for nothing|a header longer than is due|{SINGLE}",
    MISSION,                               # 29 counted
    MISSION,                               # 17, its second accepted
    MISSION,                               # 28 in the counter of 30
    MISSION,                               # a pair made younger
    MISSION,                               # 10, and a pair not kept
    MISSION,                               # 30, and a pair written over
    f"not the refusal that is due|{SINGLE}",  # 16 for 29
    f"not the onward half that is due of a flood|{SINGLE}",  # not asked for 30
    MISSION,                               # a pair freed a second early
    MISSION,                               # 29, its second accepted
    "not the refusal that is due",         # a sweep of wrong words, 16 for 21
    MISSION,                               # a sweep counted
    BOARD,                                 # the greatest lifetime, one less
    "not what the words say",              # a lifetime, told even
    "not what the words say",              # the last second, one less
    "not what the words say",              # the halves of a time exchanged
    "not what the words say",              # a place beyond the last
    MISSION,                               # a reply in npForwDatagrams
    MISSION,                               # 11 and 14 not in npOutRequests
    MISSION,                               # a request counted
    MISSION,                               # 17 counted
    MISSION,                               # a second accepted
    "the output's octets|beyond what was lent",  # an octet behind the reply
    "the output's octets",                 # a dropped reply written
    "the octets lent to be read",          # the request changed
    "the output's octets",                 # hop count 63 in the reply
    "the output's octets",                 # the request's hop count, one less
    "not the answer that is due to an echo request",  # echo drop passed over
    MISSION,                               # another slot waits
    "not the refusal that is due",         # an echo, 16 for 21
    "not the answer that is due to an echo request",  # the reply's octets, one less
    "not the answer that is due to an echo request",  # 11 for 14
    "plain answers otherwise",             # a wrong checksum passed over
    "plain answers otherwise",             # a format cut to two bits
    "the output's octets",                 # an octet behind a request
    "plain answers otherwise",             # 17 for 20
    "not the refusal that is due",         # echo drop 2 taken
    "not what the words say",              # echo drop, told turned over
    "not the refusal that is due",         # 65 items heard
    "not the refusal that is due",         # a sum that wraps
    "not the refusal that is due",         # room that is one octet short
    MISSION,                               # 27 counted
    MISSION,                               # 27, a second accepted
    LIST,                                  # 27, an answer written
    "the output's octets",                 # 27, an output written
    # two answers exchanged
    f"odd|not the refusal that is due|{SINGLE}",
    "the output's octets",                 # an octet of the next item's output
    "the output's octets|beyond what was lent",  # an octet behind the last one's
    f"{LIST}|beyond what was lent",        # an answer behind the last
    "beyond what was lent",                # a read beyond the lengths
    LIST,                                  # the slots changed
    "the octets lent to be read",          # the octets changed
    "not the refusal that is due",         # an item of no octets passed over
    MISSION,                               # every item with the first one's slot
    # and with its second
    f"{MISSION}|not the refusal that is due|odd|not the onward half that is due of a flood",
    "not the refusal that is due|odd|28 is due",  # a refused item ends the batch
    "not the refusal that is due",         # 27 for 21
    "a batch refused that fits",           # 16 for a batch of wrong words
    "a batch refused that fits",           # 27 for no item
]


def run(fault):
    return subprocess.run([PROGRAM, "calls=60000", "seed=7"], capture_output=True, text=True,
                          check=False, env={**os.environ, "SOAK_FAULT": str(fault)})


def main():
    done = run(0)
    assert done.returncode == 0, done.stdout
    assert "calls, not one failure" in done.stdout, done.stdout
    for number, expected in enumerate(FAULTS, 1):
        done = run(number)
        first = done.stdout.partition("\n")[0]
        assert done.returncode == 1, f"fault {number} is not found: {done.stdout}"
        assert first.startswith("soak: FAILED: seed=7, call "), first
        assert any(text in first for text in expected.split("|")), f"fault {number}: {first}"
        assert "soak: the call: hj_" in done.stdout, done.stdout
    print(f"test_soak: no fault is none, and {len(FAULTS)} faults are found")


main()
