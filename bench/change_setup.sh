# What the measurements of single changes share. A script sources this after `set -eu`: it makes a temporary folder
# with the crates of the engine and a program over them, `change_speed`, which makes changes over the tree one by one,
# as the tests of changes do. The script adds its `main` to "$program/src/main.rt" and calls `measure`.
root=$(cd "$(dirname "$0")/.." && pwd)
work=$(mktemp -d)
trap 'rm -rf "$work"' EXIT

below='vec_record int_metric plain_dbscan items mtree_split mtree_node mtree_index number_map count_book label_book
    update_seed insert_case chain_growth split_expand delete_case'
mkdir -p "$work/crates"
for name in $below; do
    mkdir "$work/crates/$name"
    cp -r "$root/crates/$name/src" "$root/crates/$name/specs" "$root/crates/$name/proofs" "$work/crates/$name/"
    grep "^$name:" "$root/crates.txt" >>"$work/crates.txt"
done
cp "$root/HANDLES" "$work/"
echo "change_speed: $(echo $below)" >>"$work/crates.txt"
program="$work/crates/change_speed"
mkdir -p "$program/src" "$program/specs" "$program/proofs"
touch "$program/specs/Lib.antt"

# The house of the tests, with its proofs.
cp "$root/crates/change_tests/src/tests/house.rt" "$program/src/"
cp -r "$root/crates/change_tests/proofs/tests/house" "$program/proofs/house"
cp "$root/crates/change_tests/proofs/Empty.antt" "$program/proofs/"
sed -i 's/change_tests\.proofs\.tests\./change_speed.proofs./; s/change_tests\.proofs/change_speed.proofs/' \
    $(find "$program/proofs" -name '*.antt')
echo 'pub mod Empty' >"$program/proofs/Lib.antt"

# What a loop over a house keeps: the books fit. Called with the name of the function, whose loop is over `number`.
keeps_fit() {
    mkdir -p "$program/proofs/$1"
    cat >"$program/proofs/$1/Invariants.antt" <<ANTT
use Rattle.update_seed.specs.Books.{Fits}
use Rattle.change_speed.proofs.$1.Given as goal

abbrev pub invariant-loop-number : goal.invariant-loop-number
invariant-loop-number g l =
    Fits (g.I.RangeIndex.width l.house.index) (g.I.RangeIndex.contents l.house.index) l.house.records l.house.counts l.house.labels
ANTT
}
mkdir -p "$program/proofs/main"
cat >"$program/proofs/main/Invariants.antt" <<'ANTT'
use Rattle.change_speed.proofs.main.Given as goal

abbrev pub ghosts-run : goal.ghosts-run
ghosts-run a = record { name = a.blank.name; parts = a.blank.parts }
ANTT

cat >"$program/src/main.rt" <<'RATTLE'
//! Times single changes.
#![tactic(auto)]

mod house;

ghost use Rattle.std.specs.Prelude.{◌≡◌, ◌<◌, ◌≤◌, IfOk, OnOk};
ghost use Rattle.mtree_index.specs.Tree.{contents};
ghost use Rattle.update_seed.specs.Books.{Fits};

use crate::house::{House, add, empty_house, take_out};
use int_metric::{Hamming, L1};
use mtree_index::MTree;
use plain_dbscan::RangeIndex;
use std::alloc::{AllocError, Global};
use std::io;
use std::marker::Brand;
use std::sync::ledger::{Blank, Ledger};
use std::time::Instant;
use update_seed::ask;
use vec_record::{Metric, Number, Numbers, Steps};

// Numbers that look drawn, each made of the one before.
fn draw(state: &mut u32, limit: u32) -> u32
    requires { 0 < limit }
    ensures { result < limit }
{
    *state = state.wrapping_mul(1664525).wrapping_add(1013904223);
    (*state >> 8) % limit
}

// Asks at a record that is there.
fn query<M: Metric, I: RangeIndex<M>, L: Ledger>(
    house: &House<I>,
    eps: u32,
    number: Number,
    near: &mut Numbers,
    steps: &mut Steps<L>,
) -> Result<(), AllocError>
    requires { Fits (I.width house.now.index) (I.contents house.now.index) house.now.records
        house.now.counts house.now.labels }
{
    if house.records.get(number).is_some() {
        ask::<M, I, L>(&house.records, &house.index, number, eps, near, steps)?;
    }
    Ok(())
}

// Nanoseconds of one query at each of these.
fn ask_all<M: Metric, I: RangeIndex<M>, L: Ledger>(
    rt: &HostRuntime,
    house: &House<I>,
    eps: u32,
    asked: &[Number],
    near: &mut Numbers,
    steps: &mut Steps<L>,
) -> io::Result<u128>
    requires { Fits (I.width house.now.index) (I.contents house.now.index) house.now.records
        house.now.counts house.now.labels }
{
    let start = Instant::now(rt)?;
    for i in 0..asked.len() {
        query::<M, I, L>(house, eps, asked[i], near, steps)?;
    }
    Ok(start.elapsed(rt)?.as_nanos())
}
RATTLE

# Proves, builds and runs the program. Its lines are in "$work/here".
measure() {
    (cd "$program" && rt run >/dev/null 2>"$work/log") || { cat "$work/log"; exit 1; }
    cd "$work"
    "$program/out/change_speed" >here
    grep -m1 'model name' /proc/cpuinfo | sed 's/.*: /processor: /'
}
