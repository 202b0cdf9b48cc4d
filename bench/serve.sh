#!/usr/bin/env bash
# What a batch costs a store on a real file, in processor time and by the clock: 1,000 records of 8 bytes into stores of
# 1,000, 5,000, 20,000 and 100,000 such records, for sums (`l1`) and for bits (`hamming`). Beside it, in the same run:
#   - one plain clustering of the records after it (`once`, which takes 100,000 at most: the first of them)
#   - the labels of the cores by all pairs in plain C (each pair once, -O3 -march=native, wants clang) on vectors that
#     lie in memory
# and the opening of the store, and what it keeps in memory for a record. The report after the batch must be that of
# `once`, and its cores and clusters those of C. The stores are written by this script, byte by byte as docs/FORMAT.md
# has them. Of three rounds in turn the least counts.
# Wants the built program: make demo; or one that DENSEWH names. A first argument divides all sizes: bench/serve.sh 10
set -eu
. "$(dirname "$0")/session_setup.sh"
. "$(dirname "$0")/pairs.sh"
cd "$work"
python3 - "${1:-1}" <<'PY'
import os
import random
import struct
import sys

from sessions import PROGRAM, WORK, Session, Times, seconds

DIVISOR = int(sys.argv[1])
MORE, SIZES = 1000 // DIVISOR, [size // DIVISOR for size in (1000, 5000, 20000, 100000)]
ROUNDS, WIDTH, MINPTS, CAP, PAGE, MOST = 3, 8, 4, 200000, 16384, 100000


def sums(count):
    """Points around 40 centres, each coordinate within 8 of the centre's."""
    random.seed(count)
    centres = [[random.randrange(8, 248) for _ in range(WIDTH)] for _ in range(40)]
    return [bytes(c + random.randint(-8, 8) for c in random.choice(centres)) for _ in range(count)]


def bits(count):
    """Hashes around 40 centres, at most 8 bits from the centre."""
    random.seed(count)
    centres = [random.getrandbits(64) for _ in range(40)]
    rows = []
    for _ in range(count):
        row = random.choice(centres)
        for bit in random.sample(range(64), random.randint(0, 8)):
            row ^= 1 << bit
        rows.append(row.to_bytes(8, "big"))
    return rows


# The number of the metric in the store, DIM, EPS, what draws the vectors and how one is spelled.
KINDS = {
    "l1": (1, 8, 60, sums, lambda row: ",".join(map(str, row))),
    "hamming": (3, 64, 8, bits, lambda row: format(int.from_bytes(row, "big"), "064b")),
}


def store(metric, rows):
    """The file of a store of these vectors under the numbers from 1 on, after one batch."""
    number, dim, eps = KINDS[metric][:3]
    slots = (PAGE - 16) // (16 + WIDTH)
    records = [struct.pack("<4I", i + 1, 0, 0, 0) + row for i, row in enumerate(rows)]
    bodies = [records[i : i + slots] for i in range(0, len(records), slots)]
    head = struct.pack("<11I", 2 + len(bodies), 0, number, dim, eps, MINPTS, CAP, min(1, len(rows)), len(rows), 0, 0)
    pages = [b"\1\0denswh", head] + [b"\1" + bytes(15) + b"".join(body) for body in bodies]
    return b"".join(page.ljust(PAGE, b"\0") for page in pages)


def opened(metric, rows):
    with open("warehouse.idb", "wb") as file:
        file.write(store(metric, rows))
    return Session()


def kept(metric, rows):
    """Bytes of memory for each record of an open store beyond its vector."""
    sizes = []
    for some in ([], rows):
        session = opened(metric, some)
        sizes.append(session.memory("VmRSS"))
        session.end()
    return (sizes[1] - sizes[0]) / len(rows) - WIDTH


def measure(metric, before):
    dim, eps, draw, spelled = KINDS[metric][1:]
    rows = draw(before + MORE)
    lines = [f"+,{i + 1},{spelled(row)}\n" for i, row in enumerate(rows)]
    asked = min(len(rows), MOST)
    with open("records.csv", "w") as file:
        file.writelines(lines[:asked])
    with open("records.bin", "wb") as file:
        file.write(b"".join(rows))
    once = [PROGRAM, "once", metric, str(dim), str(eps), str(MINPTS)]
    pairs = [f"{WORK}/pairs", metric, str(WIDTH), str(len(rows)), str(eps), str(MINPTS), "records.bin"]
    times = Times()
    for _ in range(ROUNDS):
        session = opened(metric, rows[:before])
        receipt, cost = session.batch("".join(lines[before:]))
        report = session.report()
        session.end()
        times.add("the batch", cost.busy)
        times.add("by the clock", cost.wall)
        times.add("the store", cost.store_busy)
        times.add("the store by the clock", cost.store_wall)
        times.add("opening", session.opening.busy)
        took, plain = seconds(once, "records.csv")
        times.add("once", took)
        if os.path.exists(pairs[0]):
            took, counts = seconds(pairs)
            times.add("pairs in C", took)
            check(counts.split(), report.split())
        if asked == len(rows) and plain != report:
            sys.exit("the report of the store is not that of its records")
    print(f"{metric}: {MORE} into {before}, {receipt.strip()}")
    print(f"  the batch: {times.beside('the batch', 'once', 'pairs in C')}")
    print(f"    in calls that write the store {times.said('the store')}")
    print(f"  by the clock: {times.said('by the clock')}")
    print(f"    in calls that write the store {times.said('the store by the clock')}")
    memory = kept(metric, rows[:before])
    print(f"  opening: {times.said('opening')}; {memory:.0f} bytes of memory a record beyond its vector")
    print(f"  {report.strip().splitlines()[-1]}{'' if asked == len(rows) else f'; once: of {asked}'}", flush=True)


def check(counts, report):
    """That C's cores and clusters are those of the last line of the report."""
    last = dict(zip(report[-10::2], report[-9::2]))
    if [last["cores"], last["clusters"]] != counts[1::2]:
        sys.exit(f"C has {counts}, the report of the store {last}")


for metric in KINDS:
    for before in SIZES:
        measure(metric, before)
PY
