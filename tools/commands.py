#!/usr/bin/env python3
"""Runs the commands of README.md and docs/COMMANDS.md with the built program, or the one that DENSEWH names, and
compares what they say with what stands beneath them there.

A command is a line `$ ..` of an indented block, with the lines that end its quotes; what it says is the lines behind it.
Those of the first page run one after the other in one shell, as a reader would; each section of the other page has a
folder of its own, with the examples, a file `batches`, and a store where the section doesn't make one. A command may say
on standard error what the page leaves out; one with nothing beneath it may say anything, and ends with 0. Those of `make`
and `pip` aren't run. The status is 0 where all is as written; where the program isn't built, nothing is run and it is 0.
"""

from __future__ import annotations

import os
import re
import shutil
import subprocess
import sys
import tempfile
from pathlib import Path
from typing import List, NamedTuple

TOP = Path(__file__).resolve().parent.parent
PROGRAM = Path(os.environ.get("DENSEWH") or TOP / "crates/densewh/out/densewh").resolve()


# A command, where it stands, and what it says there.
Example = NamedTuple("Example", [("place", str), ("command", str), ("said", str)])


def is_whole(command: str) -> bool:
    """Whether the shell can read a command, so that no line of it is missing."""
    return subprocess.run(["bash", "-n", "-c", command], capture_output=True).returncode == 0


def examples_of(page: Path) -> List[List[Example]]:
    """The commands of each section."""
    sections: List[List[Example]] = [[]]
    command, said, at, inside = "", "", 0, False
    for number, line in enumerate([*page.read_text().splitlines(), "#"], 1):
        begins, inside = line.startswith("    $ "), line.startswith("    ") and (inside or line.startswith("    $ "))
        if command and (begins or not inside):
            if not re.search(r"\b(make|pip) ", command):
                sections[-1].append(Example(f"{page.relative_to(TOP)}:{at}", command, said))
            command, said = "", ""
        if begins:
            command, at = line[6:], number
        elif inside and not is_whole(command):
            command += "\n" + line[4:]
        elif inside:
            said += line[4:] + "\n"
        elif re.match("#+ ", line):
            sections.append([])
    return [section for section in sections if section]


def check(examples: List[Example], folder: Path, work: Path) -> List[str]:
    """Runs commands one after the other, and gives a line for each that does something else."""
    script = "".join(
        f"{{ {one.command}\n}} >'{work}/{at}.out' 2>'{work}/{at}.err'; echo $? >'{work}/{at}.status'\n"
        for at, one in enumerate(examples)
    )
    subprocess.run(["bash", "-c", script], cwd=folder, stdin=subprocess.DEVNULL)
    faults = []
    for at, one in enumerate(examples):
        said, more, status = ((work / f"{at}.{kind}").read_text() for kind in ("out", "err", "status"))
        if one.said not in (said, said + more) if one.said else status != "0\n":
            faults.append(f"{one.place}: {one.command}\n{said}{more}status {status}")
    return faults


def run_all(work: Path) -> None:
    """Runs the sections of both pages; ends with 1 where one says something else."""
    faults, count = [], 0
    (work / "bin").mkdir()
    (work / "bin/densewh").symlink_to(PROGRAM)
    for examples in [sum(examples_of(TOP / "README.md"), []), *examples_of(TOP / "docs/COMMANDS.md")]:
        folder = TOP
        if not examples[0].place.startswith("README"):
            folder = Path(tempfile.mkdtemp())
            (folder / "examples").symlink_to(TOP / "examples")
            shutil.copy(TOP / "examples/rooms_day.session", folder / "batches")
            if not any(" init " in one.command for one in examples):
                subprocess.run([PROGRAM, *"init l1 1 1 3 100".split()], cwd=folder, capture_output=True)
        faults += check(examples, folder, work)
        count += len(examples)
    print("\n".join(f"commands: {fault}" for fault in faults) or f"commands: {count} do what is written beneath them")
    sys.exit(1 if faults else 0)


if __name__ == "__main__":
    if not os.access(PROGRAM, os.X_OK):
        sys.exit(print("commands: skipped, since the program isn't built (make demo)"))
    with tempfile.TemporaryDirectory() as name:
        tempfile.tempdir = os.environ["TMPDIR"] = name
        os.environ["PATH"] = f"{name}/bin:{os.environ['PATH']}"
        run_all(Path(name))
