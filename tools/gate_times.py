#!/usr/bin/env python3
"""What the gate costs: runs `rt ci`, with the words given, and says the processor time of each crate.

It looks at the provers that the gate starts, twice a second, and adds up what each has used by the time it ends:
for proofs, for tests, and for must-fail edits. What the machine has kept from an earlier run costs nothing and
isn't listed, so a whole list wants a machine that has kept nothing. Its status is the gate's.
"""
import collections
import os
import subprocess
import sys
import time

TICKS = os.sysconf("SC_CLK_TCK")
KINDS = ("proof", "tests", "edits")


def read(pid, name):
    try:
        with open(f"/proc/{pid}/{name}", "rb") as file:
            return file.read()
    except OSError:
        return b""


def parent_and_seconds(pid):
    """The parent of a process, and the processor time that it has used."""
    fields = read(pid, "stat").rpartition(b")")[2].split()
    if len(fields) < 13:
        return 0, 0.0
    return int(fields[1]), (int(fields[11]) + int(fields[12])) / TICKS


def crate_and_kind(pid):
    """The crate that a process works on, and at what; none of any other process."""
    words = read(pid, "cmdline").split(b"\0")
    if not words[0].endswith(b"/rattle") or b"--crate-name" not in words:
        return None
    crate = words[words.index(b"--crate-name") + 1].decode()
    try:
        folder = os.readlink(f"/proc/{pid}/cwd")
    except OSError:
        return None
    if "rt-edit" in folder:
        return crate, "edits"
    return crate, "tests" if b"--test" in words else "proof"


def look(top, seen):
    """Notes what the provers below a process have used so far."""
    parents = {}
    for name in os.listdir("/proc"):
        if name.isdigit():
            parents[int(name)] = parent_and_seconds(name)
    for pid, (_, seconds) in parents.items():
        above = pid
        while above and above != top:
            above = parents.get(above, (0, 0.0))[0]
        work = crate_and_kind(pid) if above == top else None
        if work:
            seen[pid] = (work, seconds)


def main():
    gate = subprocess.Popen(["rt", "ci", *sys.argv[1:]])
    seen = {}
    while gate.poll() is None:
        look(gate.pid, seen)
        time.sleep(0.5)
    sums = collections.defaultdict(lambda: dict.fromkeys(KINDS, 0.0))
    for (crate, kind), seconds in seen.values():
        sums[crate][kind] += seconds
    print(f"{'processor seconds':20}" + "".join(f"{kind:>8}" for kind in KINDS) + f"{'all':>8}")
    for crate, row in sorted(sums.items(), key=lambda it: -sum(it[1].values())):
        print(f"{crate:20}" + "".join(f"{row[kind]:8.0f}" for kind in KINDS) + f"{sum(row.values()):8.0f}")
    print(f"all: {sum(sum(row.values()) for row in sums.values()) / 60:.1f} processor minutes")
    return gate.returncode


if __name__ == "__main__":
    sys.exit(main())
