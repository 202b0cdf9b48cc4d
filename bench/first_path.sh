#!/usr/bin/env bash
# What `once` takes, all told: start, reading, clustering and the report. Wants the built program: make demo; or one
# that DENSEWH names.
#   - one-dimensional records, 2,000 and 20,000: time for each of the n * n pairs, and the greatest memory
#   - 20,000 hashes of 64 bits and 20,000 vectors of 128 bytes, most alone and the rest in groups: processor
#     time, beside all pairs in plain C (each pair once, -O3 -march=native, wants clang) on vectors that lie in
#     memory, and beside scikit-learn where python3 has it
# RIVAL may name a further program, run as RIVAL scratch METRIC DIM EPS MINPTS N WIDTH FILE OUT, which says fit_s.
# Of five runs in turn the least counts.
set -eu
top=$(cd "$(dirname "$0")/.." && pwd)
program=${DENSEWH:-$top/crates/densewh/out/densewh}
[ -x "$program" ] || { echo "build the program first: make demo"; exit 1; }
work=$(mktemp -d)
trap 'rm -rf "$work"' EXIT
grep -m1 'model name' /proc/cpuinfo | sed 's/.*: /processor: /'

. "$(dirname "$0")/pairs.sh"

python3 - "$program" "$work" <<'PY'
import os, random, resource, subprocess, sys, time
program, work = sys.argv[1], sys.argv[2]


def seconds(words, path=None):
    """Processor seconds of a program, and the last line that it says."""
    before = resource.getrusage(resource.RUSAGE_CHILDREN)
    with open(path or os.devnull) as file:
        done = subprocess.run(words, stdin=file, capture_output=True, text=True)
    after = resource.getrusage(resource.RUSAGE_CHILDREN)
    took = after.ru_utime + after.ru_stime - before.ru_utime - before.ru_stime
    return took, (done.stdout.strip().splitlines() or [""])[-1]


def one_dimension():
    # One cluster of cores; cores of many clusters beside noise; no core at all.
    for count in (2000, 20000):
        for name, eps, minpts in (("one", 1, 2), ("many", 0, count // 260), ("noise", 0, 65535)):
            random.seed(count)
            path = f"{work}/{name}{count}"
            with open(path, "w") as f:
                for i in range(count):
                    f.write(f"+,{i + 1},{random.randrange(256)}\n")
            runs = [seconds([program, "once", "l1", "1", str(eps), str(minpts)], path) for _ in range(3)]
            best, last = min(runs)
            peak = resource.getrusage(resource.RUSAGE_CHILDREN).ru_maxrss / 1024
            print(f"{count:6} {name:8} {best * 1e9 / count ** 2:6.2f} ns a pair  {best:7.3f} s  {peak:6.1f} MB so far  {last}")


def grouped(count, new, changed):
    """Vectors of which three in five are alone and the others lie in groups of 2 to 40."""
    rows = [new() for _ in range(3 * count // 5)]
    while len(rows) < count:
        centre = new()
        rows.extend(changed(centre) for _ in range(min(random.choice((2, 3, 4, 6, 10, 40)), count - len(rows))))
    random.shuffle(rows)
    return rows


def flipped(hash):
    for bit in random.sample(range(64), random.randrange(1, 5)):
        hash ^= 1 << bit
    return hash


def moved(row):
    return bytes(min(255, max(0, x + random.randrange(-3, 4))) for x in row)


def wide():
    random.seed(1)
    hashes = grouped(20000, lambda: random.getrandbits(64), flipped)
    vectors = grouped(20000, lambda: random.randbytes(128), moved)
    # A spelled bit 0 is the first byte's greatest, as the program has it.
    inputs = [
        ("hamming", 64, 8, 8, 3, [h.to_bytes(8, "big") for h in hashes], lambda r: format(int.from_bytes(r, "big"), "064b")),
        ("l1", 128, 128, 700, 3, vectors, lambda r: ",".join(map(str, r))),
    ]
    for metric, dim, width, eps, minpts, rows, spelled in inputs:
        path, flat = f"{work}/{metric}.csv", f"{work}/{metric}.bin"
        with open(path, "w") as file:
            file.writelines(f"+,{i + 1},{spelled(row)}\n" for i, row in enumerate(rows))
        with open(flat, "wb") as file:
            file.write(b"".join(rows))
        rivals = {"once": ([program, "once", metric, str(dim), str(eps), str(minpts)], path)}
        if os.path.exists(f"{work}/pairs"):
            rivals["pairs in C"] = ([f"{work}/pairs", metric, str(width), str(len(rows)), str(eps), str(minpts), flat], None)
        if os.environ.get("RIVAL"):
            words = ["scratch", metric, str(dim), str(eps), str(minpts), str(len(rows)), str(width), flat, f"{work}/out"]
            rivals["RIVAL"] = ([os.environ["RIVAL"], *words], None)
        least = {}
        for _ in range(5):
            for name, (words, given) in rivals.items():
                took, last = seconds(words, given)
                least[name] = min(least.get(name, (took, last)), (took, last))
        print(f"{len(rows)} of {width} bytes, {metric}: {least['once'][1]}")
        for name, (took, last) in least.items():
            print(f"  {name:12} {took:7.3f} s  {least['once'][0] / took:5.2f} times  {last if name != 'once' else ''}")
        learn(metric, rows, eps, minpts, least["once"][0])


def learn(metric, rows, eps, minpts, ours):
    try:
        import numpy
        from sklearn.cluster import DBSCAN
    except ImportError:
        return
    table = numpy.frombuffer(b"".join(rows), dtype=numpy.uint8).reshape(len(rows), -1)
    name, reach = ("manhattan", eps)
    if metric == "hamming":
        table, name, reach = numpy.unpackbits(table, axis=1), "hamming", (eps + 0.5) / 64
    start = time.process_time()
    DBSCAN(eps=reach, min_samples=minpts, metric=name, algorithm="brute").fit(table)
    took = time.process_time() - start
    print(f"  scikit-learn {took:7.3f} s  {ours / took:5.2f} times")


one_dimension()
wide()
PY
