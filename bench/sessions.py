"""What the measurements of sessions share: a `serve` that is asked step by step, and what each step costs it."""
import mmap
import os
import re
import resource
import struct
import subprocess
import sys
import time
from typing import NamedTuple

PROGRAM, WORK = os.environ["PROGRAM"], os.environ["WORK"]


class Cost(NamedTuple):
    """Seconds of the processor and of the clock, and the same within the calls that write or sync the store."""

    busy: float
    wall: float
    store_busy: float
    store_wall: float


class Session:
    """A `serve` in the current folder. After each step it is asked a line that isn't known, so that a step is over."""

    def __init__(self):
        with open(f"{WORK}/calls", "w+b") as file:
            file.write(bytes(16))
            file.flush()
            self.calls = mmap.mmap(file.fileno(), 16)
        shim = f"{WORK}/store_calls.so"
        more = {"LD_PRELOAD": shim, "STORE_CALLS": f"{WORK}/calls"} if os.path.exists(shim) else {}
        self.before = Cost(0, time.perf_counter(), 0, 0)
        self.process = subprocess.Popen(
            [PROGRAM, "serve"],
            stdin=subprocess.PIPE,
            stdout=subprocess.PIPE,
            stderr=subprocess.DEVNULL,
            env={**os.environ, **more},
        )
        self.opening = self.step()

    def step(self):
        """The cost since the step before."""
        self.say("?\n", b"refused 21")
        busy = time.clock_gettime(~self.process.pid << 3 | 2)  # the processor's clock of that process
        store_busy, store_wall = (spent / 1e9 for spent in struct.unpack("<2Q", self.calls[:]))
        before, self.before = self.before, Cost(busy, time.perf_counter(), store_busy, store_wall)
        return Cost(*(now - then for now, then in zip(self.before, before)))

    def asked(self, text, last):
        """The answer to a text, and its cost."""
        self.before = self.before._replace(wall=time.perf_counter())
        return self.say(text, last), self.step()

    def batch(self, body):
        """The receipt of a batch, and its cost."""
        return self.asked(f"batch\n{body}end\n", b"ok ")

    def report(self):
        return self.asked("report\n", b"records ")[0]

    def say(self, text, last):
        """The answer to a text, up to the line that begins with `last`."""
        self.process.stdin.write(text.encode())
        self.process.stdin.flush()
        answer = []
        while not answer or not answer[-1].startswith(last):
            answer.append(self.process.stdout.readline())
            if not answer[-1] or answer[-1].startswith(b"refused") and not last.startswith(b"refused"):
                sys.exit(f"{PROGRAM} serve said {answer[-1]!r}")
        return b"".join(answer).decode()

    def memory(self, name):
        """Bytes of memory by the system's count: VmRSS now, VmHWM at most."""
        with open(f"/proc/{self.process.pid}/status") as file:
            return int(re.search(rf"{name}:\s*(\d+) kB", file.read())[1]) * 1024

    def end(self):
        self.process.stdin.close()
        self.process.wait()


def seconds(words, path=os.devnull):
    """Processor seconds of a program whose input is a file, and what it says."""
    before = resource.getrusage(resource.RUSAGE_CHILDREN)
    with open(path) as file:
        done = subprocess.run(words, stdin=file, capture_output=True, text=True)
    after = resource.getrusage(resource.RUSAGE_CHILDREN)
    if done.returncode != 0:
        sys.exit(f"{words} ended with {done.returncode}: {done.stdout[-200:]}{done.stderr}")
    return after.ru_utime + after.ru_stime - before.ru_utime - before.ru_stime, done.stdout


class Times:
    """The times of rounds that run in turn, by name: of each the least counts."""

    def __init__(self):
        self.rounds = {}

    def add(self, name, time):
        self.rounds.setdefault(name, []).append(max(time, 1e-6))

    def least(self, name):
        return min(self.rounds[name])

    def said(self, name):
        """The least, and by how much the greatest is above it."""
        return f"{self.least(name):.3g} s (to +{max(self.rounds[name]) / self.least(name) - 1:.0%})"

    def beside(self, name, *rivals):
        """A line: the time of `name`, and those of the rivals that ran with its ratio to each."""
        parts = [self.said(name)]
        for rival in rivals:
            if rival in self.rounds:
                parts.append(f"{rival} {self.said(rival)}, ratio {self.least(name) / self.least(rival):.3g}")
        return "; ".join(parts)
