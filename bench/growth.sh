#!/bin/sh
# Time of a deletion from one cluster of 20,000 cores: on a line, which is folded into rows two apart, and in a square.
# Records go from the end, and from the middle: there a line falls in two each time, and of the square's holes none
# does. Beside each, in the same run, the same queries by `range` alone, as `replay.sh` says. With the word `distances`
# it counts distances in the place of times, in a copy that isn't proved and is slow: there 50 records go in the place of
# 1,000. YARDSTICKS may name a folder with model.cpp, which isn't part of this repository: it makes the same changes over
# a tree of its own, and counts the distances of its queries and of what it takes out of the tree. Wants g++ and python3
# then. Wants rt. It works in a temporary folder and leaves nothing behind.
set -eu
. "$(dirname "$0")/change_setup.sh"
. "$(dirname "$0")/replay.sh"

cat >>"$program/src/main.rt" <<'RATTLE'

#[derive(Clone, Copy)]
struct Shape {
    square: bool,
    end: bool,
}

// The point of a number: one step from those of the numbers before and after it.
fn point_of(square: bool, number: u32) -> [u8; 2] {
    if square {
        return [(number % 142) as u8, (number / 142 % 256) as u8];
    }
    let row = number / 257;
    let at = number % 257;
    let along = if at < 256 { at } else { 255 };
    let across = if row % 2 == 0 { along } else { 255u32.wrapping_sub(along) };
    let down = row.wrapping_mul(2).wrapping_add(at / 256);
    [(across % 256) as u8, (down % 256) as u8]
}

// Adds 20,000 records.
fn fill<M: Metric, I: RangeIndex<M>, L: Ledger>(
    alloc: Global,
    house: &mut House<I>,
    square: bool,
    steps: &mut Steps<L>,
) -> Result<(), AllocError>
    requires { Fits (I.width house.old.index) (I.contents house.old.index) house.old.records
        house.old.counts house.old.labels }
    ensures { OnOk result (Fits (I.width house.new.index) (I.contents house.new.index)
        house.new.records house.new.counts house.new.labels) }
{
    for number in 1..20001u32 {
        let _ = add::<M, I, L>(alloc, house, 1, number, &point_of(square, number), steps)?;
    }
    Ok(())
}

// The numbers that are taken out: 20 of the middle of the line, or 1,000.
fn gone(alloc: Global, shape: Shape) -> Result<Vec<Number>, AllocError> {
    let mut numbers = Vec::new(alloc);
    for k in 0..1000u32 {
        if shape.end {
            numbers.push(20000u32.wrapping_sub(k))?;
        } else if shape.square {
            numbers.push(k.wrapping_mul(7).wrapping_add(7001))?;
        } else if k < 20 {
            numbers.push(10000u32.wrapping_sub(k.wrapping_mul(10)))?;
        }
    }
    Ok(numbers)
}

fn run<L: Ledger>(rt: &HostRuntime, blank: Blank, shape: Shape) -> io::Result<Times>
    requires name { blank.name ≡ L.name }
    requires parts { blank.parts ≡ L.parts }
    requires some { 0 < blank.parts }
{
    let alloc = rt.alloc();
    let mut steps = Steps::<L>::new(rt, blank);
    let mut house = empty_house::<L1>(alloc, 2, if shape.square { 3 } else { 2 });
    fill::<L1, MTree<L1>, L>(alloc, &mut house, shape.square, &mut steps)?;
    let numbers = gone(alloc, shape)?;
    fewer::<L1, MTree<L1>, L>(rt, &mut house, 1, &numbers, &mut steps)
}

fn main(rt: HostRuntime) -> io::Result<()> {
    for square in [false, true] {
        for end in [true, false] {
            let times = run::<Brand>(&rt, Blank::new(1), Shape { square, end })?;
            let shape = if square { "square" } else { "line" };
            let many = if square || end { 1000 } else { 20 };
            let place = if end { "end" } else { "middle" };
            println!(rt; "{shape} {place} {} {} {} {many}", times.deletions, times.queries, times.asked)?;
        }
    }
    Ok(())
}
RATTLE

# What the model counts, for all of the records.
model_distances() {
    g++ -O2 -march=x86-64-v2 -w -DGROW=2 -DLABELS=1 -o "$work/model" "$YARDSTICKS/model.cpp"
    (cd "$work" && python3 - <<'PY'
import json
import struct
import subprocess


def point(square, number):
    if square:
        return number % 142, number // 142 % 256
    row, at = divmod(number, 257)
    along = min(at, 255)
    return along if row % 2 == 0 else 255 - along, row * 2 + at // 256


for square in (False, True):
    with open("all.bin", "wb") as file:
        file.write(b"".join(bytes(point(square, number)) for number in range(1, 20001)))
    for place, gone in (
        ("end", range(20000, 19000, -1)),
        ("middle", range(7001, 14001, 7) if square else range(10000, 9800, -10)),
    ):
        with open("ops_01.bin", "wb") as file:
            ops = [len(gone), *(number - 1 for number in gone), 0]
            file.write(struct.pack(f"<{len(ops)}i", *ops))
        words = ["./model", "l1", "2", "1", "3" if square else "2", "20000", "2", "all.bin", "1", "ops"]
        found = json.loads(subprocess.run(words, capture_output=True, check=True).stdout)
        asked, taken, queries = (
            found[kind] / len(gone) for kind in ("day_query_distances", "day_tree_distances", "day_queries")
        )
        shape = "square" if square else "line"
        print(f"{shape:>6}, {place:>6}, the model: {asked:.1f} in {queries:.1f} queries, {taken:.1f} in the tree")
PY
    )
}

keeps_fit fill
if [ "${1:-}" = distances ]; then
    [ -z "${YARDSTICKS:-}" ] || model_distances
    sed -i 's/0\.\.1000u32/0..50u32/; s/{ 1000 }/{ 50 }/' "$program/src/main.rt"
    count_distances
    awk '{ printf "%6s, %6s: %.1f distances a deletion, %.1f of its queries alone, %.3f of these\n", $1, $2, $3 / $6, $4 / $6, $3 / $4 }' here
    exit
fi
measure
awk '{ printf "%6s, %6s: %.1f us a deletion, %.2f of its queries alone, %.1f beside the two at the record\n", $1, $2, $3 / $6 / 1000, $3 / $4, $5 / $6 }' here
