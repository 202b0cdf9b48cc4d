# What the measurements of the tree share. A script sources this after `set -eu`: it makes a temporary folder
# with the crates of the tree and a program over them, `tree_speed`, which inserts vectors one by one, and the
# beginning of a C program to compare with. The script adds its own part to "$program/src/main.rt" and to
# "$work/plain.c", and then calls `measure`.
root=$(cd "$(dirname "$0")/.." && pwd)
work=$(mktemp -d)
trap 'rm -rf "$work"' EXIT

mkdir -p "$work/crates"
for name in vec_record int_metric plain_dbscan items mtree_split mtree_node mtree_index; do
    mkdir "$work/crates/$name"
    cp -r "$root/crates/$name/src" "$root/crates/$name/specs" "$root/crates/$name/proofs" "$work/crates/$name/"
done
cp "$root/HANDLES" "$work/"
cat >"$work/crates.txt" <<'CRATES'
vec_record:
int_metric: vec_record
plain_dbscan: vec_record
items:
mtree_split:
mtree_node: vec_record int_metric items
mtree_index: vec_record int_metric items plain_dbscan mtree_split mtree_node
tree_speed: vec_record int_metric plain_dbscan items mtree_node mtree_index
CRATES
program="$work/crates/tree_speed"
mkdir -p "$program/src" "$program/specs" "$program/proofs/insert_next" "$program/proofs/insert_all" "$program/proofs/main"
touch "$program/specs/Lib.antt" "$program/proofs/Lib.antt"

cat >"$program/src/main.rt" <<'RATTLE'
//! Times calls of the tree.
#![tactic(auto)]

ghost use Rattle.std.specs.Prelude.{◌≡◌, ℕ, ◌+◌, ◌<◌, ◌≤◌, length, None, OnOk, IfOk};
ghost use Rattle.std.specs.FinMap as map;
ghost use Rattle.vec_record.specs.Vectors.{IsWidth};
ghost use Rattle.mtree_index.specs.Tree.{contents};

use int_metric::L1;
use mtree_index::MTree;
use plain_dbscan::RangeIndex;
use std::alloc::{AllocError, Global};
use std::io;
use std::marker::Brand;
use std::sync::ledger::{Blank, Ledger};
use std::time::Instant;
use vec_record::{Steps, Vector};

fn next_vector(alloc: Global, width: u32, state: &mut u32) -> Result<Vector, AllocError> {
    let mut bytes = Vec::new(alloc);
    for _ in 0..width {
        *state = state.wrapping_mul(1664525).wrapping_add(1013904223);
        bytes.push((*state >> 24) as u8)?;
    }
    Vector::from_slice(alloc, &bytes)
}

fn insert_next<L: Ledger>(
    tree: &mut MTree<L1>,
    number: u32,
    vector: &Vector,
    steps: &mut Steps<L>,
) -> Result<(), AllocError>
    requires width { tree.old.width ≡ length vector.now }
    requires number { number < 100000 }
    requires fresh { (q : ℕ) → number ≤ q → map.get (contents tree.old) q ≡ None }
    requires few { map.len (contents tree.old) < number }
    ensures width { tree.new.width ≡ tree.old.width }
    ensures fresh { OnOk result ((q : ℕ) → number + 1 ≤ q → map.get (contents tree.new) q ≡ None) }
    ensures few { OnOk result (map.len (contents tree.new) < number + 1) }
{
    tree.insert(number, vector, steps)
}

fn insert_all<L: Ledger>(
    rt: &HostRuntime,
    width: u32,
    vectors: &[Vector],
    blank: Blank,
) -> Result<MTree<L1>, AllocError>
    requires width { IsWidth width }
    requires name { blank.name ≡ L.name }
    requires parts { blank.parts ≡ L.parts }
    requires some { 0 < blank.parts }
    ensures { IfOk result (λ t. t.width ≡ width) }
{
    let mut steps = Steps::<L>::new(rt, blank);
    let mut tree: MTree<L1> = MTree::empty(rt.alloc(), width);
    let mut number = 1u32;
    for vector in vectors {
        if number < 100000 && vector.as_slice().len() == width as usize {
            insert_next(&mut tree, number, vector, &mut steps)?;
            number += 1;
        }
    }
    Ok(tree)
}
RATTLE

cp "$root/crates/mtree_index/proofs/tests/insert_next/Answers.antt" "$program/proofs/insert_next/"
sed -i 's/mtree_index.proofs.tests.insert_next/tree_speed.proofs.insert_next/' "$program/proofs/insert_next/Answers.antt"
cat >"$program/proofs/insert_all/Invariants.antt" <<'ANTT'
use Rattle.std.proofs.Common.{◌≡◌, ℕ, ◌<◌, ◌≤◌, None}
use Rattle.std.specs.FinMap as map
use Rattle.mtree_index.specs.Tree.{contents}
use Rattle.tree_speed.proofs.insert_all.Given as goal

abbrev pub invariant-loop-vector : goal.invariant-loop-vector
invariant-loop-vector g l = record {
  width : l.tree.width ≡ l.width;
  limit : l.number ≤ 100000;
  fresh : (q : ℕ) → l.number ≤ q → map.get (contents l.tree) q ≡ None;
  few : map.len (contents l.tree) < l.number;
}
ANTT
cat >"$program/proofs/insert_all/Answers.antt" <<'ANTT'
use Rattle.std.proofs.Common.{ap, ◌∙◌, List, ℕ, arith}
use Rattle.std.specs.FinMap as map
use Rattle.std.specs.Ordering.{nat_cmp}
use Rattle.mtree_index.specs.Plain.{PlainTree}
use Rattle.mtree_index.specs.Tree.{contents}
use Rattle.tree_speed.proofs.insert_all.Goals as goal

pub loop-vector-init : goal.loop-vector-init
loop-vector-init g c = record {
  width = ap (λ (t : PlainTree). t.width) c.empty-tree.ensures;
  limit = omega arith;
  fresh = λ q l. ap (λ (t : PlainTree). map.get (contents t) q) c.empty-tree.ensures ∙ map.get-empty nat_cmp q;
  few = omega (arith, ap (λ (t : PlainTree). map.len (contents t)) c.empty-tree.ensures, map.len-empty nat_cmp (List ℕ));
}
ANTT
cat >"$program/proofs/main/Invariants.antt" <<'ANTT'
use Rattle.tree_speed.proofs.main.Given as goal

abbrev pub ghosts-insert_all : goal.ghosts-insert_all
ghosts-insert_all a = record { name = a.blank.name; parts = a.blank.parts }
ANTT

cat >"$work/plain.c" <<'PLAIN'
#include <emmintrin.h>
#include <stdint.h>
#include <stdio.h>
#include <stdlib.h>
#include <time.h>

static double now(void) {
    struct timespec t;
    clock_gettime(CLOCK_MONOTONIC, &t);
    return t.tv_sec * 1e9 + t.tv_nsec;
}

/* The sum by the processor's instruction, 8 bytes at a time; a width is a multiple of 8 here. */
static inline uint32_t l1(const uint8_t *a, const uint8_t *b, size_t n) {
    __m128i sum = _mm_setzero_si128();
    for (size_t i = 0; i < n; i += 8)
        sum = _mm_add_epi64(sum, _mm_sad_epu8(_mm_loadl_epi64((const __m128i *)(a + i)), _mm_loadl_epi64((const __m128i *)(b + i))));
    return _mm_cvtsi128_si32(sum);
}

static uint8_t **vectors(uint32_t width, uint32_t count) {
    uint32_t state = 12345;
    uint8_t **all = malloc(count * sizeof *all);
    for (uint32_t i = 0; i < count; i++) {
        all[i] = malloc(width);
        for (uint32_t j = 0; j < width; j++) all[i][j] = (state = state * 1664525 + 1013904223) >> 24;
    }
    return all;
}
PLAIN

# Proves, builds and runs both programs. Their lines are in "$work/here" and "$work/there".
measure() {
    (cd "$program" && rt run >/dev/null 2>"$work/log") || { cat "$work/log"; exit 1; }
    clang -O3 -march=x86-64-v2 -o "$work/plain" "$work/plain.c" 2>/dev/null || cc -O3 -march=x86-64-v2 -o "$work/plain" "$work/plain.c"
    cd "$work"
    "$program/out/tree_speed" >here
    "$work/plain" >there
    grep -m1 'model name' /proc/cpuinfo | sed 's/.*: /processor: /'
}
