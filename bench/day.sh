#!/usr/bin/env bash
# What a store costs from day to day, in processor time: the first load of the six workloads of `workloads.py`, 20,000
# records each and 100,000 of the last, and then 20 days, on each of which one record in a hundred goes and as many
# come; a day is the median of the 20. All are batches of one session on a real file; what the program takes within the
# calls that write and sync the store is in these times, and is said apart too. In the end the store is opened again,
# and its report must be that of `once` on the records that are left. Of three rounds in turn the least counts.
# YARDSTICKS may name a folder with two rivals in C++ that aren't part of this repository: model.cpp, which does the
# same over a tree in memory without a store, and rerun.cpp, which clusters by all pairs with AVX2, here the records
# after the load and after the last day. Wants g++ then. Without it they are left out.
# Wants the built program: make demo; or one that DENSEWH names. A first argument divides the sizes, and more name some
# of the workloads: bench/day.sh 10 2d sensor
set -eu
. "$(dirname "$0")/session_setup.sh"
if [ -n "${YARDSTICKS:-}" ]; then
    g++ -O3 -march=x86-64-v2 -w -o "$work/model" "$YARDSTICKS/model.cpp"
    g++ -O3 -march=native -w -o "$work/rerun" "$YARDSTICKS/rerun.cpp"
else
    echo "without YARDSTICKS: no model and no rerun beside it"
fi
cd "$work"
python3 - "$@" <<'PY'
import json
import os
import shutil
import statistics
import sys

import workloads
from sessions import PROGRAM, WORK, Session, Times, seconds
from workloads import DAYS, WORKLOADS

RECORDS = 20000 // int(sys.argv[1] if len(sys.argv) > 1 else 1)
ROUNDS, CAP = 3, 200000


def read(path):
    with open(path) as file:
        return file.read()


def here(name, words, load, day):
    """A store is born, loaded and kept for the days; its last report and its greatest memory."""
    os.makedirs("store")
    os.chdir("store")
    seconds([PROGRAM, "init", *words, str(CAP)])
    session = Session()
    _, loaded = session.batch(read(f"../{name}/load.csv"))
    days = [session.batch(read(f"../{name}/day_{day:02}.csv"))[1] for day in range(1, DAYS + 1)]
    most = session.memory("VmHWM")
    session.end()
    again = Session()
    report = again.report()
    again.end()
    size = os.path.getsize("warehouse.idb")
    os.chdir("..")
    shutil.rmtree("store")
    load.add("opening", again.opening.busy)
    for times, costs in ((load, [loaded]), (day, days)):
        for name, values in zip(("here", "by the clock", "the store", "the store by the clock"), zip(*costs)):
            times.add(name, statistics.median(values))
    return report, f"memory at most {most / 2**20:.0f} MB, the file {size / 2**20:.1f} MB"


def rivals(name, words, width, loaded, load, day):
    """The two programs on the same vectors; the counts after the last day by the second."""
    given = [*words, str(loaded), str(width)]
    model = json.loads(seconds([f"{WORK}/model", *given, f"{name}/all.bin", str(DAYS), f"{name}/ops"])[1])
    load.add("model", model["load_s"])
    day.add("model", model["day_s"])
    for times, state in ((load, "before"), (day, "after")):
        took, said = seconds([f"{WORK}/rerun", "scratch", *given, f"{name}/{state}.bin", "rerun.out"])
        times.add("rerun", took)
    counts = json.loads(said)
    return [str(counts[kind]) for kind in ("cores", "borders", "noise", "clusters")]


def measure(name):
    words, width = workloads.words(name)
    loaded = workloads.write(name, name, RECORDS)
    once, plain = seconds([PROGRAM, "once", *words], f"{name}/left.csv")
    load, day = Times(), Times()
    for _ in range(ROUNDS):
        report, sizes = here(name, words, load, day)
        if report != plain:
            sys.exit(f"{name}: the report of the store is not that of its records")
        last = report.split()[-10:]
        if os.path.exists(f"{WORK}/model") and rivals(name, words, width, loaded, load, day) != last[3::2]:
            sys.exit(f"{name}: the rerun's counts are not those of the report, {last}")
    print(f"{name}: {' '.join(words)}, {loaded} records, of which {max(1, loaded // 100)} go and come a day")
    for step, times in (("load", load), ("a day", day)):
        print(f"  {step}: {times.beside('here', 'model', 'rerun')}")
        print(f"    in calls that write the store {times.said('the store')}")
        print(f"  {step} by the clock: {times.said('by the clock')}")
        print(f"    in calls that write the store {times.said('the store by the clock')}")
    print(f"  opening: {load.said('opening')}; once: {once:.3g} s; {sizes}")
    print(f"  {' '.join(last)}", flush=True)
    shutil.rmtree(name)


for name in sys.argv[2:] or WORKLOADS:
    measure(name)
PY
