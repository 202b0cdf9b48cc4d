#!/usr/bin/env bash
# Speed of reading CSV batches: `once` over long inputs whose last line is malformed, so that the answer
# is its refusal and nothing is clustered. Wants the built program: make demo. Prints MB of text a second
# beside a plain read of the same file in the same run, and the greatest memory for each byte of text.
set -eu
top=$(cd "$(dirname "$0")/.." && pwd)
program=$top/crates/densewh/out/densewh
[ -x "$program" ] || { echo "build the program first: make demo"; exit 1; }
work=$(mktemp -d)
trap 'rm -rf "$work"' EXIT
grep -m1 'model name' /proc/cpuinfo | sed 's/.*: /processor: /'
python3 - "$program" "$work" <<'PY'
import os, random, subprocess, sys, time
program, work = sys.argv[1], sys.argv[2]
random.seed(1)

def bits(i):
    return f"+,{i},{random.getrandbits(64):064b}"

def coordinates(i):
    return f"+,{i}," + ",".join(str(random.randrange(256)) for _ in range(128))

cases = (
    ("64-bit hamming", 99999, bits, ["once", "hamming", "64", "5", "3"]),
    ("128 coordinates", 19999, coordinates, ["once", "l1", "128", "5", "3"]),
)
for name, count, line, words in cases:
    path = f"{work}/input"
    with open(path, "w") as f:
        for i in range(1, count + 1):
            f.write(line(i) + "\n")
        f.write("*\n")
    size = os.path.getsize(path)
    best, yard, peak = None, None, 0
    for _ in range(5):
        with open(path) as f:
            start = time.perf_counter()
            child = subprocess.Popen([program] + words, stdin=f, stdout=subprocess.PIPE, text=True)
            said = child.stdout.read()
            _, _, use = os.wait4(child.pid, 0)
            took = time.perf_counter() - start
        assert said == f"refused 11 at {count + 1}\n", said
        peak = max(peak, use.ru_maxrss * 1024)
        best = took if best is None else min(best, took)
        start = time.perf_counter()
        subprocess.run(["cat", path], stdout=subprocess.DEVNULL, check=True)
        took = time.perf_counter() - start
        yard = took if yard is None else min(yard, took)
    print(f"{name:16} {size / 1e6:6.2f} MB  {size / best / 1e6:7.1f} MB/s  {best / yard:6.1f} times cat  {peak / size:5.2f} bytes of memory a byte of text")
PY
