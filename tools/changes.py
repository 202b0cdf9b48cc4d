#!/usr/bin/env python3
"""Changes one by one, each compared with a clustering from scratch, on the built program.

The changes are those that `trial 7 300` makes, and once more with coordinates from 0 to 15, where many records are near
each other. Each is a batch of its own in a store of each metric (for bits, the bits of the coordinates), and the report
after each batch must be what `once` says of the records that are then present, to the byte: `once` clusters by all
pairs, the store by its tree and books. The receipts' counts are added up, so that it is seen what happened. Beside that,
2,000 vectors of 512 bits with CRLF and every field quoted, of which it is known what is said.

DENSEWH names the program; else it is the built one. Its status is 0 where all is as it should be.
"""
import os
import subprocess
import sys
import tempfile

TOP = os.path.join(os.path.dirname(os.path.abspath(__file__)), "..")
PROGRAM = os.environ.get("DENSEWH", os.path.join(TOP, "crates", "densewh", "out", "densewh"))
SEED, COUNT = 7, 300
KINDS = ("noise", "created", "absorbed", "merged", "removed", "reduced", "split")


def draws(seed):
    """What the generator draws."""
    x = seed
    while True:
        x = (1664525 * x + 1013904223) % 2**32
        yield x


def changes(shift):
    """The changes of the trial: a number, and its coordinates or none. A coordinate is a draw without its low bits."""
    drawn, present = draws(SEED), set()
    for _ in range(COUNT):
        number = 1 + next(drawn) // 256 % COUNT
        if number in present:
            present.remove(number)
            yield number, None
        else:
            present.add(number)
            yield number, (next(drawn) >> shift, next(drawn) >> shift)


def bits(vector, each):
    """The bits of the coordinates, as one field."""
    return "".join(f"{x:0{each}b}" for x in vector)


def run(words, text, folder):
    """What the program says."""
    ended = subprocess.run([PROGRAM, *words], input=text.encode(), capture_output=True, cwd=folder, check=False)
    if ended.returncode != 0:
        sys.exit(f"changes: {' '.join(words)} ended with {ended.returncode}: {ended.stderr.decode()}")
    return ended.stdout.decode()


def compare(metric, dim, eps, minpts, shift):
    """Runs the changes under a metric; gives how often each kind of event came."""
    spell = (lambda v: bits(v, dim // 2)) if metric == "hamming" else (lambda v: f"{v[0]},{v[1]}")
    words, rows, due, session = [metric, str(dim), str(eps), str(minpts)], {}, [], []
    with tempfile.TemporaryDirectory() as folder:
        for number, vector in changes(shift):
            if vector is None:
                del rows[number]
                session.append(f"batch\n-,{number}\nend\nreport\n")
            else:
                rows[number] = spell(vector)
                session.append(f"batch\n+,{number},{rows[number]}\nend\nreport\n")
            due.append(run(["once", *words], "".join(f"+,{n},{v}\n" for n, v in rows.items()), folder))
        run(["init", *words, "1000"], "", folder)
        said = run(["serve"], "".join(session), folder)
    counts = [0] * len(KINDS)
    for place, report in enumerate(due, 1):
        receipt, _, said = said.partition("\n")
        counts = [a + int(b) for a, b in zip(counts, receipt.split()[5::2])]
        if not said.startswith(report):
            sys.exit(f"changes: {' '.join(words)}: the report after change {place} isn't that of once")
        said = said[len(report):]
    return counts


def quoted():
    """The session of 2,000 vectors of 512 bits."""
    rows = [f'"+","{i}","{"1" * (25 * (i % 20)):0<512}"' for i in range(1, 2001)]
    due = "ok 1 +2000 -0 noise 980 created 20 absorbed 1000 merged 0 removed 0 reduced 0 split 0\n"
    due += "records 2000 cores 2000 borders 0 noise 0 clusters 20\n"
    with tempfile.TemporaryDirectory() as folder:
        run(["init", "hamming", "512", "24", "50", "10000"], "", folder)
        if run(["serve"], "\r\n".join(["batch", *rows, "end", "summary", ""]), folder) != due:
            sys.exit("changes: the 2,000 vectors of 512 bits come to something else")


def main():
    if not os.access(PROGRAM, os.X_OK):
        print("changes: skipped, since the program isn't built (make demo)")
        return
    total = [0] * len(KINDS)
    for shift in (24, 28):
        for metric, dim, eps in (("l1", 2, 3), ("max", 2, 2), ("hamming", 2 * (32 - shift), 2)):
            for minpts in (2, 4):
                total = [a + b for a, b in zip(total, compare(metric, dim, eps, minpts, shift))]
    quoted()
    print("changes: 12 times 300, each report that of once;", " ".join(f"{k} {n}" for k, n in zip(KINDS, total)))


if __name__ == "__main__":
    main()
