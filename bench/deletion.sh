#!/bin/sh
# Time of a deletion from 20,000 records of 8 bytes, with its clusters: 1,000 deletions under the sum of the absolute
# differences (at most 24, minpts 4), from sparse data, near 2,000 centres, and from dense data, near 100. Beside each,
# in the same run, the same queries by `range` alone, as `replay.sh` says. Wants rt. It works in a temporary folder and
# leaves nothing behind.
set -eu
. "$(dirname "$0")/change_setup.sh"
. "$(dirname "$0")/replay.sh"

cat >>"$program/src/main.rt" <<'RATTLE'

// The bytes of a record near one of so many centres: a few coordinates are changed.
fn bytes_of(alloc: Global, centres: u32, state: &mut u32) -> Result<Vec<u8>, AllocError>
    requires { 0 < centres }
{
    let mut centre = draw(state, centres).wrapping_mul(2654435761);
    let mut bytes = Vec::new(alloc);
    for _ in 0..8 {
        centre = centre.wrapping_mul(1664525).wrapping_add(1013904223);
        let byte = (centre >> 24) as u8;
        let change = if draw(state, 3) == 0 { draw(state, 8) } else { 0 };
        bytes.push(byte.saturating_add(change as u8))?;
    }
    Ok(bytes)
}

// Adds 20,000 records.
fn fill<M: Metric, I: RangeIndex<M>, L: Ledger>(
    alloc: Global,
    house: &mut House<I>,
    eps: u32,
    centres: u32,
    steps: &mut Steps<L>,
) -> Result<(), AllocError>
    requires fits { Fits (I.width house.old.index) (I.contents house.old.index) house.old.records
        house.old.counts house.old.labels }
    requires centres { 0 < centres }
    ensures { OnOk result (Fits (I.width house.new.index) (I.contents house.new.index)
        house.new.records house.new.counts house.new.labels) }
{
    let mut state = 1;
    for number in 1..20001u32 {
        let bytes = bytes_of(alloc, centres, &mut state)?;
        let _ = add::<M, I, L>(alloc, house, eps, number, &bytes, steps)?;
    }
    Ok(())
}

// The numbers that are taken out.
fn gone(alloc: Global) -> Result<Vec<Number>, AllocError> {
    let mut numbers = Vec::new(alloc);
    for number in 7001..8001u32 {
        numbers.push(number)?;
    }
    Ok(numbers)
}

fn run<L: Ledger>(rt: &HostRuntime, blank: Blank, centres: u32) -> io::Result<Times>
    requires name { blank.name ≡ L.name }
    requires parts { blank.parts ≡ L.parts }
    requires some { 0 < blank.parts }
    requires centres { 0 < centres }
{
    let alloc = rt.alloc();
    let mut steps = Steps::<L>::new(rt, blank);
    let mut house = empty_house::<L1>(alloc, 8, 4);
    fill::<L1, MTree<L1>, L>(alloc, &mut house, 24, centres, &mut steps)?;
    let numbers = gone(alloc)?;
    fewer::<L1, MTree<L1>, L>(rt, &mut house, 24, &numbers, &mut steps)
}

fn main(rt: HostRuntime) -> io::Result<()> {
    for centres in [2000u32, 100] {
        if centres > 0 {
            let times = run::<Brand>(&rt, Blank::new(1), centres)?;
            println!(rt; "{centres} {} {} {}", times.deletions, times.queries, times.asked)?;
        }
    }
    Ok(())
}
RATTLE

keeps_fit fill
measure
awk '{ printf "%4d centres: %.1f us a deletion, %.2f of its queries alone, %.2f beside the two at the record\n", $1, $2 / 1e6, $2 / $3, $4 / 1000 }' here
