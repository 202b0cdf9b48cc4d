#!/bin/sh
# Time of an insertion into 20,000 records of 8 bytes, with its clusters: 1,000 insertions of bits (Hamming, at most 8
# of 64) and of sums (at most 24). Beside them, in the same run and over the same tree when all are in it, the same
# queries by `range` alone, one after the other: one at each record and one at each new core. Wants rt. It works in a
# temporary folder and leaves nothing behind.
set -eu
. "$(dirname "$0")/change_setup.sh"

cat >>"$program/src/main.rt" <<'RATTLE'

// The bytes of a record near one of 2,000 centres: a few bits, or a few coordinates, are changed.
fn bytes_of(alloc: Global, bits: bool, state: &mut u32) -> Result<Vec<u8>, AllocError> {
    let mut centre = draw(state, 2000).wrapping_mul(2654435761);
    let mut bytes = Vec::new(alloc);
    for _ in 0..8 {
        centre = centre.wrapping_mul(1664525).wrapping_add(1013904223);
        let byte = (centre >> 24) as u8;
        let change = if draw(state, 3) == 0 { draw(state, 8) } else { 0 };
        bytes.push(if bits {
            byte ^ (1u8 << change)
        } else {
            byte.saturating_add(change as u8)
        })?;
    }
    Ok(bytes)
}

// Adds the records of the numbers from `from` on and below `to`.
fn fill<M: Metric, I: RangeIndex<M>, L: Ledger>(
    alloc: Global,
    house: &mut House<I>,
    setting: Setting,
    to: u32,
    steps: &mut Steps<L>,
) -> Result<(), AllocError>
    requires { Fits (I.width house.old.index) (I.contents house.old.index) house.old.records
        house.old.counts house.old.labels }
    ensures { OnOk result (Fits (I.width house.new.index) (I.contents house.new.index)
        house.new.records house.new.counts house.new.labels) }
{
    let mut state = 1;
    for number in 1..to {
        let bytes = bytes_of(alloc, setting.bits, &mut state)?;
        let _ = add::<M, I, L>(alloc, house, setting.eps, number, &bytes, steps)?;
    }
    Ok(())
}

// Which of the numbers below `to` are core.
fn cores_below<I>(alloc: Global, house: &House<I>, to: u32) -> Result<Vec<bool>, AllocError> {
    let mut cores = Vec::new(alloc);
    for number in 0..to {
        cores.push(house.counts.is_core(number))?;
    }
    Ok(cores)
}

// Notes the record and, of the numbers near it, those that are core and weren't.
fn note<I>(
    house: &House<I>,
    number: Number,
    near: &[Number],
    cores: &mut Vec<bool>,
    asked: &mut Vec<Number>,
) -> Result<(), AllocError> {
    asked.push(number)?;
    for i in 0..near.len() {
        let at = near[i] as usize;
        if at < cores.len() && !cores[at] && house.counts.is_core(near[i]) {
            cores[at] = true;
            asked.push(near[i])?;
        }
    }
    Ok(())
}

/// Nanoseconds of the insertions and of the same queries alone, and how many queries.
#[derive(Drop)]
struct Times {
    insertions: u128,
    queries: u128,
    asked: usize,
}

#[derive(Clone, Copy)]
struct Setting {
    bits: bool,
    eps: u32,
}

// Adds 1,000 records more, and then asks all the same queries again, one after the other.
fn more<M: Metric, I: RangeIndex<M>, L: Ledger>(
    rt: &HostRuntime,
    house: &mut House<I>,
    setting: Setting,
    cores: &mut Vec<bool>,
    steps: &mut Steps<L>,
) -> io::Result<Times>
    requires { Fits (I.width house.old.index) (I.contents house.old.index) house.old.records
        house.old.counts house.old.labels }
{
    let alloc = rt.alloc();
    let mut state = 77;
    let mut near = Numbers::new(alloc);
    let mut asked = Vec::new(alloc);
    let mut insertions = 0u128;
    for number in 20001..21001u32 {
        let bytes = bytes_of(alloc, setting.bits, &mut state)?;
        let start = Instant::now(rt)?;
        let _ = add::<M, I, L>(alloc, house, setting.eps, number, &bytes, steps)?;
        insertions = insertions.wrapping_add(start.elapsed(rt)?.as_nanos());
        query::<M, I, L>(house, setting.eps, number, &mut near, steps)?;
        note(house, number, near.as_slice(), cores, &mut asked)?;
    }
    let queries = ask_all::<M, I, L>(rt, house, setting.eps, &asked, &mut near, steps)?;
    Ok(Times {
        insertions,
        queries,
        asked: asked.len(),
    })
}

// Builds a store of 20,000 records and measures 1,000 more.
fn made<M: Metric, L: Ledger>(
    rt: &HostRuntime,
    setting: Setting,
    steps: &mut Steps<L>,
) -> io::Result<Times> {
    let alloc = rt.alloc();
    let mut house = empty_house::<M>(alloc, 8, 4);
    fill::<M, MTree<M>, L>(alloc, &mut house, setting, 20001, steps)?;
    let mut cores = cores_below(alloc, &house, 21001)?;
    more::<M, MTree<M>, L>(rt, &mut house, setting, &mut cores, steps)
}

fn run<L: Ledger>(rt: &HostRuntime, blank: Blank, bits: bool) -> io::Result<Times>
    requires name { blank.name ≡ L.name }
    requires parts { blank.parts ≡ L.parts }
    requires some { 0 < blank.parts }
{
    let mut steps = Steps::<L>::new(rt, blank);
    if bits {
        made::<Hamming, L>(rt, Setting { bits, eps: 8 }, &mut steps)
    } else {
        made::<L1, L>(rt, Setting { bits, eps: 24 }, &mut steps)
    }
}

fn main(rt: HostRuntime) -> io::Result<()> {
    for bits in [true, false] {
        let times = run::<Brand>(&rt, Blank::new(1), bits)?;
        let name = if bits { "bits" } else { "sums" };
        println!(rt; "{name} {} {} {}", times.insertions, times.queries, times.asked)?;
    }
    Ok(())
}
RATTLE

keeps_fit fill
keeps_fit more
measure
awk '{ printf "%s: %.1f us an insertion, %.2f of its %.2f queries alone\n", $1, $2 / 1e6, $2 / $3, $4 / 1000 }' here
