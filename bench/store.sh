#!/usr/bin/env bash
# What a store costs to open and to save: 20,000 and 200,000 records of 8 bytes, and as many of 128 bytes, under `l1`, drawn
# evenly, so that each is alone. Said are the opening by the processor and by the clock, with its greatest memory beside the
# file's size; a batch of one change and one of 1,000, by the processor without what the program takes within the calls that
# write and sync the store, and by the clock; the bytes that each wrote; and the file's bytes for each record. Beside it, where
# its shell is there, SQLite with a table of the same records by number: all rows read, and the same changes in one transaction
# each with full syncs, by the clock, the start of the shell included. Of three rounds in turn the least counts.
# Wants the built program: make demo; or one that DENSEWH names. A first argument divides the sizes: bench/store.sh 10
set -eu
. "$(dirname "$0")/session_setup.sh"
cd "$work"
python3 - "$@" <<'PY'
import os
import random
import shutil
import subprocess
import sys
import time

from sessions import PROGRAM, Session, Times, seconds

PART = int(sys.argv[1]) if len(sys.argv) > 1 else 1
ROUNDS, CHANGES, CAP, PORTION = 3, (1, 1000), 200_000, 20_000
SQLITE = shutil.which("sqlite3")


def insertions(numbers, rows):
    return "".join(f"+,{n}," + ",".join(map(str, rows[n])) + "\n" for n in numbers)


def batches(count, rows, draw):
    """For each size of a batch its body, by which so many records go and as many new ones come, and its statements."""
    for size in CHANGES:
        gone = draw.sample(sorted(rows), size // 2)
        come = range(count + 1, count + 1 + size - len(gone))
        for n in gone:
            del rows[n]
        rows.update((n, draw.randbytes(len(next(iter(rows.values()))))) for n in come)
        count = come[-1] if come else count
        body = "".join(f"-,{n}\n" for n in gone) + insertions(come, rows)
        yield size, body, (
            [f"delete from r where n={n};" for n in gone] + [f"insert into r values({n},x'{rows[n].hex()}');" for n in come]
        )


def wrote(session):
    """Bytes that the program gave to writing calls."""
    with open(f"/proc/{session.process.pid}/io") as file:
        return int(dict(line.split(": ") for line in file)["wchar"])


def clock(words, text=""):
    before = time.perf_counter()
    subprocess.run(words, input=text, text=True, check=True, stdout=subprocess.DEVNULL)
    return time.perf_counter() - before


def bear(count, rows):
    """A store of the records, and a table of them, each made once; the rounds work on copies."""
    os.makedirs("first")
    os.chdir("first")
    seconds([PROGRAM, "init", "l1", str(len(rows[1])), "0", "2", str(CAP)])
    for first in range(1, count + 1, PORTION):
        session = Session()
        session.batch(insertions(range(first, min(first + PORTION, count + 1)), rows))
        session.end()
    if SQLITE:
        begin = ["create table r(n integer primary key, v blob);", "begin;"]
        whole = [f"insert into r values({n},x'{rows[n].hex()}');" for n in range(1, count + 1)]
        clock([SQLITE, "r.db"], "\n".join(begin + whole + ["commit;"]))
    os.chdir("..")


def here(count, steps, times, said):
    size = os.path.getsize("warehouse.idb")
    session = Session()
    times.add("opening", session.opening.busy)
    times.add("opening by the clock", session.opening.wall)
    said["memory"] = f"greatest memory {session.memory('VmHWM') / size:.2f} times the file"
    said["file"] = f"the file {size / 2**20:.1f} MB, {size / count:.0f} bytes a record"
    for changes, body, _ in steps:
        before = wrote(session)
        answer, cost = session.batch(body)
        times.add(f"saving {changes}", cost.busy - cost.store_busy)
        times.add(f"saving {changes} by the clock", cost.wall)
        said[changes] = f"{(wrote(session) - before - len(answer)) / 1024:.0f} KB written"
    session.end()


def sqlite(steps, times):
    times.add("SQLite opening", clock([SQLITE, "r.db"], "select sum(n), sum(length(v)), max(hex(v)) from r;"))
    for changes, _, statements in steps:
        text = "\n".join(["pragma synchronous=full;", "begin;", *statements, "commit;"])
        times.add(f"SQLite {changes}", clock([SQLITE, "r.db"], text))


for width in (8, 128):
    for count in (20_000 // PART, 200_000 // PART - CHANGES[-1]):
        draw = random.Random(width + count)
        rows = {n: draw.randbytes(width) for n in range(1, count + 1)}
        steps = list(batches(count, dict(rows), draw))
        times, said = Times(), {}
        bear(count, rows)
        for _ in range(ROUNDS):
            shutil.copytree("first", "round")
            os.chdir("round")
            here(count, steps, times, said)
            if SQLITE:
                sqlite(steps, times)
            os.chdir("..")
            shutil.rmtree("round")
        shutil.rmtree("first")
        print(f"{count} records of {width} bytes: {said['file']}, {said['memory']}")
        print("  opening: " + times.said("opening"))
        print("  opening by the clock: " + times.beside("opening by the clock", "SQLite opening"))
        for changes in CHANGES:
            print(f"  {changes} changes without the store's calls: {times.said(f'saving {changes}')}; {said[changes]}")
            print(f"  {changes} changes by the clock: " + times.beside(f"saving {changes} by the clock", f"SQLite {changes}"))
PY
