#!/bin/sh
# Nanoseconds per distance where a metric is asked about many rows of a block at once, beside the same form in
# C at -O3, in one run: a range of 256 rows (range), and 28 places as in a leaf (leaf). Of 25 short runs the
# least counts. Both sides ask the same, and their totals must agree.
# Wants rt and clang. It works in a temporary folder and leaves nothing behind.
set -eu
root=$(cd "$(dirname "$0")/.." && pwd)
work=$(mktemp -d)
trap 'rm -rf "$work"' EXIT

mkdir -p "$work/crates"
for name in vec_record int_metric; do
    mkdir "$work/crates/$name"
    cp -r "$root/crates/$name/src" "$root/crates/$name/specs" "$root/crates/$name/proofs" "$work/crates/$name/"
done
cp "$root/HANDLES" "$work/"
printf 'vec_record:\nint_metric: vec_record\nblock_speed: vec_record int_metric\n' >"$work/crates.txt"
program="$work/crates/block_speed"
mkdir -p "$program/src" "$program/specs" "$program/proofs/main"
touch "$program/specs/Lib.antt" "$program/proofs/Lib.antt"

cat >"$program/src/main.rt" <<'RATTLE'
#![tactic(auto)]

ghost use Rattle.std.specs.Prelude.{◌≡◌, ◌<◌, length};
ghost use Rattle.vec_record.specs.Vectors.{IsWidth};

use int_metric::{Hamming, L1, Max};
use std::alloc::{AllocError, Global};
use std::io;
use std::marker::Brand;
use std::sync::ledger::{Blank, Ledger};
use std::time::Instant;
use vec_record::{Block, Metric, Steps, Vector};

const ROWS: u32 = 256;
const LEAF: usize = 28;
const REPEATS: u32 = 25;

fn filled(alloc: Global, width: u32) -> Result<Block, AllocError>
    requires { IsWidth width }
{
    let mut block = Block::new(alloc, width);
    let mut state = 12345u32;
    for _ in 0..ROWS {
        let mut bytes = Vec::new(alloc);
        for _ in 0..width {
            state = state.wrapping_mul(1664525).wrapping_add(1013904223);
            bytes.push((state >> 24) as u8)?;
        }
        if bytes.len() == block.width() as usize {
            block.push(&bytes)?;
        }
    }
    Ok(block)
}

fn range_hits<M: Metric, L: Ledger>(
    rt: &HostRuntime,
    block: &Block,
    radius: u32,
    rounds: u32,
    blank: Blank,
) -> u32
    requires name { blank.name ≡ L.name }
    requires parts { blank.parts ≡ L.parts }
    requires some { 0 < blank.parts }
{
    let mut steps = Steps::<L>::new(rt, blank);
    let mut near = [0usize; 256];
    let mut total = 0u32;
    let _width = block.width();
    for i in 0..rounds {
        let at = (i.wrapping_mul(7).wrapping_add(3) % ROWS) as usize;
        if at < block.len() && block.len() <= 256 {
            let few = M::within_range(block.row(at), block, 0..block.len(), radius, &mut near, &mut steps);
            total = total.wrapping_add((few % 1000) as u32);
        }
    }
    total
}

fn leaf_hits<M: Metric, L: Ledger>(
    rt: &HostRuntime,
    block: &Block,
    radius: u32,
    rounds: u32,
    blank: Blank,
) -> u32
    requires name { blank.name ≡ L.name }
    requires parts { blank.parts ≡ L.parts }
    requires some { 0 < blank.parts }
{
    let mut steps = Steps::<L>::new(rt, blank);
    let mut near = [0u8; 32];
    let places = [
        1u8, 9, 2, 27, 4, 5, 6, 7, 8, 0, 10, 11, 12, 26, 14, 15, 16, 20, 18, 19, 17, 21, 22, 23, 24, 25, 13, 3,
    ];
    let mut total = 0u32;
    let _width = block.width();
    for i in 0..rounds {
        let at = (i.wrapping_mul(7).wrapping_add(3) % ROWS) as usize;
        if at < block.len() && block.len() > 28 {
            let few = M::within(block.row(at), block, &places, radius, &mut near, &mut steps);
            total = total.wrapping_add((few % 1000) as u32);
        }
    }
    total
}

// A line for the range and one for the leaf: metric, bytes, form, distances, the least time, the total.
fn measure<M: Metric>(rt: &HostRuntime, name: &str, block: &Block, radius: u32) -> io::Result<()> {
    let width = block.width();
    let rounds = 100_000 / (width + 16);
    let mut least = u128::MAX;
    let mut total = 0;
    for _ in 0..REPEATS {
        let start = Instant::now(rt)?;
        total = range_hits::<M, Brand>(rt, block, radius, rounds, Blank::new(1));
        least = least.min(start.elapsed(rt)?.as_nanos());
    }
    println!(rt; "{name} {width} range {} {least} {total}", 256 * rounds)?;
    least = u128::MAX;
    for _ in 0..REPEATS {
        let start = Instant::now(rt)?;
        total = leaf_hits::<M, Brand>(rt, block, radius, 8 * rounds, Blank::new(1));
        least = least.min(start.elapsed(rt)?.as_nanos());
    }
    println!(rt; "{name} {width} leaf {} {least} {total}", 28 * 8 * rounds)
}

fn main(rt: HostRuntime) -> io::Result<()> {
    for width in [1u32, 2, 4, 7, 8, 16, 32, 33, 64, 128, 256] {
        if width == 0 || width > 512 {
            return Ok(());
        }
        let block = filled(rt.alloc(), width)?;
        measure::<L1>(&rt, "l1", &block, 50 * width)?;
        measure::<Max>(&rt, "max", &block, 128)?;
        measure::<Hamming>(&rt, "hamming", &block, 5 * width / 2)?;
    }
    Ok(())
}
RATTLE

mkdir -p "$program/proofs/measure"
{
    echo 'use Rattle.block_speed.proofs.measure.Given as goal'
    for call in range_hits leaf_hits; do
        printf '\nabbrev pub ghosts-%s : goal.ghosts-%s\n' "$call" "$call"
        printf 'ghosts-%s g a = record { name = a.blank.name; parts = a.blank.parts }\n' "$call"
    done
} >"$program/proofs/measure/Invariants.antt"

cat >"$work/plain.c" <<'PLAIN'
#include <stdint.h>
#include <stdio.h>
#include <stdlib.h>
#include <string.h>
#include <time.h>

#define ROWS 256
#define INLINE static inline __attribute__((always_inline))

INLINE int l1(const uint8_t *a, const uint8_t *b, size_t n, uint32_t radius) {
    uint32_t total = 0;
    size_t i = 0;
    for (; i + 32 <= n; i += 32) {
        for (size_t j = 0; j < 32; j++) total += abs((int)a[i + j] - (int)b[i + j]);
        if (total > radius) return 0;
    }
    for (; i < n; i++) total += abs((int)a[i] - (int)b[i]);
    return total <= radius;
}

INLINE int max(const uint8_t *a, const uint8_t *b, size_t n, uint32_t radius) {
    uint8_t most = 0;
    for (size_t i = 0; i < n; i++) {
        uint8_t apart = a[i] > b[i] ? a[i] - b[i] : b[i] - a[i];
        if (apart > most) most = apart;
    }
    return most <= radius;
}

INLINE int hamming(const uint8_t *a, const uint8_t *b, size_t n, uint32_t radius) {
    uint32_t total = 0;
    size_t i = 0;
    for (; i + 8 <= n; i += 8) {
        uint64_t x, y;
        memcpy(&x, a + i, 8);
        memcpy(&y, b + i, 8);
        total += __builtin_popcountll(x ^ y);
    }
    for (; i < n; i++) total += __builtin_popcount(a[i] ^ b[i]);
    return total <= radius;
}

static double now(void) {
    struct timespec t;
    clock_gettime(CLOCK_MONOTONIC, &t);
    return t.tv_sec * 1e9 + t.tv_nsec;
}

static const uint8_t places[28] = {1, 9, 2, 27, 4, 5, 6, 7, 8, 0, 10, 11, 12, 26,
                                   14, 15, 16, 20, 18, 19, 17, 21, 22, 23, 24, 25, 13, 3};

#define FORMS(name) \
INLINE size_t name##_range_of(const uint8_t *c, const uint8_t *block, size_t n, uint32_t radius, size_t *near) { \
    size_t count = 0; \
    for (size_t k = 0; k < ROWS; k++) { near[count] = k; count += name(c, block + k * n, n, radius); } \
    return count; \
} \
INLINE size_t name##_leaf_of(const uint8_t *c, const uint8_t *block, size_t n, uint32_t radius, uint8_t *near, const uint8_t *at, size_t many) { \
    size_t count = 0; \
    for (size_t k = 0; k < many; k++) { near[count] = at[k]; count += name(c, block + at[k] * n, n, radius); } \
    return count; \
} \
__attribute__((noinline)) static size_t name##_range(const uint8_t *c, const uint8_t *block, size_t n, uint32_t radius, size_t *near) { \
    switch (n) { \
    case 1: return name##_range_of(c, block, 1, radius, near); \
    case 2: return name##_range_of(c, block, 2, radius, near); \
    case 4: return name##_range_of(c, block, 4, radius, near); \
    case 8: return name##_range_of(c, block, 8, radius, near); \
    case 16: return name##_range_of(c, block, 16, radius, near); \
    case 32: return name##_range_of(c, block, 32, radius, near); \
    case 64: return name##_range_of(c, block, 64, radius, near); \
    case 128: return name##_range_of(c, block, 128, radius, near); \
    default: return name##_range_of(c, block, n, radius, near); \
    } \
} \
__attribute__((noinline)) static size_t name##_leaf(const uint8_t *c, const uint8_t *block, size_t n, uint32_t radius, uint8_t *near, const uint8_t *at, size_t many) { \
    switch (n) { \
    case 1: return name##_leaf_of(c, block, 1, radius, near, at, many); \
    case 2: return name##_leaf_of(c, block, 2, radius, near, at, many); \
    case 4: return name##_leaf_of(c, block, 4, radius, near, at, many); \
    case 8: return name##_leaf_of(c, block, 8, radius, near, at, many); \
    case 16: return name##_leaf_of(c, block, 16, radius, near, at, many); \
    case 32: return name##_leaf_of(c, block, 32, radius, near, at, many); \
    case 64: return name##_leaf_of(c, block, 64, radius, near, at, many); \
    case 128: return name##_leaf_of(c, block, 128, radius, near, at, many); \
    default: return name##_leaf_of(c, block, n, radius, near, at, many); \
    } \
} \
static void measure_##name(const uint8_t *block, uint32_t width, uint32_t radius) { \
    uint32_t rounds = 100000 / (width + 16), total = 0; \
    size_t near[256]; \
    uint8_t small[32]; \
    double least = 1e18; \
    for (int r = 0; r < 25; r++) { \
        double start = now(); \
        total = 0; \
        for (uint32_t i = 0; i < rounds; i++) total += name##_range(block + (i * 7 + 3) % ROWS * width, block, width, radius, near) % 1000; \
        double time = now() - start; \
        if (time < least) least = time; \
    } \
    printf(#name " %u range %u %.0f %u\n", width, 256 * rounds, least, total); \
    least = 1e18; \
    for (int r = 0; r < 25; r++) { \
        double start = now(); \
        total = 0; \
        for (uint32_t i = 0; i < 8 * rounds; i++) total += name##_leaf(block + (i * 7 + 3) % ROWS * width, block, width, radius, small, places, 28) % 1000; \
        double time = now() - start; \
        if (time < least) least = time; \
    } \
    printf(#name " %u leaf %u %.0f %u\n", width, 28 * 8 * rounds, least, total); \
}
FORMS(l1)
FORMS(max)
FORMS(hamming)

int main(void) {
    uint32_t widths[] = {1, 2, 4, 7, 8, 16, 32, 33, 64, 128, 256};
    for (int w = 0; w < 11; w++) {
        uint32_t width = widths[w], state = 12345;
        uint8_t *block = malloc(ROWS * width);
        for (uint32_t i = 0; i < ROWS * width; i++) {
            state = state * 1664525u + 1013904223u;
            block[i] = state >> 24;
        }
        measure_l1(block, width, 50 * width);
        measure_max(block, width, 128);
        measure_hamming(block, width, 5 * width / 2);
        free(block);
    }
    return 0;
}
PLAIN

(cd "$program" && rt run) >"$work/log" 2>&1 || { tail -40 "$work/log"; exit 1; }
grep -E '^(l1|max|hamming) [0-9]+ (range|leaf) [0-9]+ [0-9]+ [0-9]+$' "$work/log" >"$work/here"
clang -O3 -march=x86-64-v2 -o "$work/plain" "$work/plain.c"
"$work/plain" >"$work/there"

paste -d ' ' "$work/here" "$work/there" | awk '
    BEGIN { printf "%-8s %5s %-6s %8s %8s %6s\n", "metric", "bytes", "form", "here ns", "C ns", "ratio" }
    $6 != $12 { print "the totals differ at " $1 " " $2 " " $3; wrong = 1 }
    { printf "%-8s %5d %-6s %8.2f %8.2f %6.2f\n", $1, $2, $3, $5 / $4, $11 / $10, ($5 / $4) / ($11 / $10) }
    END { exit wrong }'
