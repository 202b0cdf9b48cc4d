#!/bin/sh
# Nanoseconds per distance of each metric, beside C at -O3 with the instructions of the same processor, in one run:
# the sum by `psadbw`, the maximum by `pmaxub`, the bits by words of 8 bytes.
# Both sides measure the same pairs of 64 vectors, for the same processor, and their totals must agree.
# Wants rt and clang. It works in a temporary folder and leaves nothing behind. The least of five runs each.
set -eu
root=$(cd "$(dirname "$0")/.." && pwd)
work=$(mktemp -d)
trap 'rm -rf "$work"' EXIT

mkdir -p "$work/crates"
for name in vec_record int_metric; do
    mkdir "$work/crates/$name"
    cp -r "$root/crates/$name/src" "$root/crates/$name/specs" "$root/crates/$name/proofs" "$work/crates/$name/"
done
cp "$root/HANDLES" "$work/"
printf 'vec_record:\nint_metric: vec_record\ndistance_speed: vec_record int_metric\n' >"$work/crates.txt"
program="$work/crates/distance_speed"
mkdir -p "$program/src" "$program/specs" "$program/proofs/main"
touch "$program/specs/Lib.antt" "$program/proofs/Lib.antt"

cat >"$program/src/main.rt" <<'RATTLE'
#![tactic(auto)]

ghost use Rattle.std.specs.Prelude.{◌≡◌, ◌<◌};
ghost use Rattle.vec_record.specs.Vectors.{IsWidth};

use int_metric::{Hamming, L1, Max};
use std::alloc::{AllocError, Global};
use std::io;
use std::marker::Brand;
use std::sync::ledger::{Blank, Ledger};
use std::time::Instant;
use vec_record::{Metric, Steps, Vector};

fn filled(alloc: Global, width: u32) -> Result<Vec<Vector>, AllocError> {
    let mut all = Vec::new(alloc);
    let mut state = 12345u32;
    for _ in 0..64 {
        let mut bytes = Vec::new(alloc);
        for _ in 0..width {
            state = state.wrapping_mul(1664525).wrapping_add(1013904223);
            bytes.push((state >> 24) as u8)?;
        }
        all.push(Vector::from_slice(alloc, &bytes)?)?;
    }
    Ok(all)
}

fn total<M: Metric, L: Ledger>(
    rt: &HostRuntime,
    all: &[Vector],
    width: u32,
    rounds: u32,
    blank: Blank,
) -> u32
    requires name { blank.name ≡ L.name }
    requires parts { blank.parts ≡ L.parts }
    requires some { 0 < blank.parts }
    requires width { IsWidth width }
{
    let mut steps = Steps::<L>::new(rt, blank);
    let mut total = 0u32;
    for i in 0..rounds {
        let j = (i % 64) as usize;
        let k = (i.wrapping_mul(7).wrapping_add(3) % 64) as usize;
        if let (Some(a), Some(b)) = (all.get(j), all.get(k)) {
            if a.as_slice().len() == width as usize && b.as_slice().len() == width as usize {
                total = total.wrapping_add(M::distance(a, b, &mut steps));
            }
        }
    }
    total
}

fn main(rt: HostRuntime) -> io::Result<()> {
    for width in [1u32, 8, 32, 128, 256] {
        if width == 0 || width > 512 {
            return Ok(());
        }
        let all = filled(rt.alloc(), width)?;
        let rounds = 40_000_000 / (width + 16);
        let start = Instant::now(&rt)?;
        let sum = total::<L1, Brand>(&rt, &all, width, rounds, Blank::new(1));
        let time = start.elapsed(&rt)?.as_nanos();
        println!(rt; "l1 {width} {rounds} {time} {sum}")?;
        let start = Instant::now(&rt)?;
        let sum = total::<Max, Brand>(&rt, &all, width, rounds, Blank::new(1));
        let time = start.elapsed(&rt)?.as_nanos();
        println!(rt; "max {width} {rounds} {time} {sum}")?;
        let start = Instant::now(&rt)?;
        let sum = total::<Hamming, Brand>(&rt, &all, width, rounds, Blank::new(1));
        let time = start.elapsed(&rt)?.as_nanos();
        println!(rt; "hamming {width} {rounds} {time} {sum}")?;
    }
    Ok(())
}
RATTLE

{
    echo 'use Rattle.distance_speed.proofs.main.Given as goal'
    for call in '' -2 -3; do
        printf '\nabbrev pub ghosts-total%s : goal.ghosts-total%s\n' "$call" "$call"
        printf 'ghosts-total%s a = record { name = a.blank.name; parts = a.blank.parts }\n' "$call"
    done
} >"$program/proofs/main/Invariants.antt"

cat >"$work/plain.c" <<'PLAIN'
#include <emmintrin.h>
#include <stdint.h>
#include <stdio.h>
#include <stdlib.h>
#include <string.h>
#include <time.h>

typedef struct { uint8_t *bytes; size_t length; } Vector;

/* Each as an expert would write it for this processor: sums by its instruction, bits by words of 8 bytes. */
static inline __m128i load16(const uint8_t *a) { return _mm_loadu_si128((const __m128i *)a); }
static inline __m128i load8(const uint8_t *a) { return _mm_loadl_epi64((const __m128i *)a); }

static inline uint32_t l1(const uint8_t *a, const uint8_t *b, size_t n) {
    __m128i sum = _mm_setzero_si128();
    size_t i = 0;
    for (; i + 16 <= n; i += 16) sum = _mm_add_epi64(sum, _mm_sad_epu8(load16(a + i), load16(b + i)));
    for (; i + 8 <= n; i += 8) sum = _mm_add_epi64(sum, _mm_sad_epu8(load8(a + i), load8(b + i)));
    uint32_t total = _mm_cvtsi128_si32(sum) + _mm_cvtsi128_si32(_mm_srli_si128(sum, 8));
    for (; i < n; i++) total += abs((int)a[i] - (int)b[i]);
    return total;
}

static inline __m128i apart(__m128i a, __m128i b) { return _mm_or_si128(_mm_subs_epu8(a, b), _mm_subs_epu8(b, a)); }

static inline uint32_t max(const uint8_t *a, const uint8_t *b, size_t n) {
    __m128i all = _mm_setzero_si128();
    size_t i = 0;
    for (; i + 16 <= n; i += 16) all = _mm_max_epu8(all, apart(load16(a + i), load16(b + i)));
    for (; i + 8 <= n; i += 8) all = _mm_max_epu8(all, apart(load8(a + i), load8(b + i)));
    all = _mm_max_epu8(all, _mm_srli_si128(all, 8));
    all = _mm_max_epu8(all, _mm_srli_si128(all, 4));
    all = _mm_max_epu8(all, _mm_srli_si128(all, 2));
    all = _mm_max_epu8(all, _mm_srli_si128(all, 1));
    uint8_t most = _mm_cvtsi128_si32(all);
    for (; i < n; i++) {
        uint8_t one = abs((int)a[i] - (int)b[i]);
        if (one > most) most = one;
    }
    return most;
}

static inline uint32_t hamming(const uint8_t *a, const uint8_t *b, size_t n) {
    uint32_t total = 0;
    size_t i = 0;
    for (; i + 8 <= n; i += 8) {
        uint64_t x, y;
        memcpy(&x, a + i, 8);
        memcpy(&y, b + i, 8);
        total += __builtin_popcountll(x ^ y);
    }
    for (; i < n; i++) total += __builtin_popcount(a[i] ^ b[i]);
    return total;
}

static double now(void) {
    struct timespec t;
    clock_gettime(CLOCK_MONOTONIC, &t);
    return t.tv_sec * 1e9 + t.tv_nsec;
}

#define MEASURE(name) { \
    double start = now(); \
    uint32_t total = 0; \
    for (uint32_t i = 0; i < rounds; i++) { \
        uint32_t j = i % 64, k = (i * 7 + 3) % 64; \
        if (all[j].length == width && all[k].length == width) \
            total += name(all[j].bytes, all[k].bytes, all[j].length); \
    } \
    printf(#name " %u %u %.0f %u\n", width, rounds, now() - start, total); \
}

int main(void) {
    uint32_t widths[] = {1, 8, 32, 128, 256};
    for (int w = 0; w < 5; w++) {
        uint32_t width = widths[w], state = 12345, rounds = 40000000 / (width + 16);
        Vector all[64];
        for (int i = 0; i < 64; i++) {
            all[i] = (Vector){malloc(width), width};
            for (uint32_t j = 0; j < width; j++) {
                state = state * 1664525u + 1013904223u;
                all[i].bytes[j] = state >> 24;
            }
        }
        MEASURE(l1)
        MEASURE(max)
        MEASURE(hamming)
    }
    return 0;
}
PLAIN

(cd "$program" && rt run) >"$work/log" 2>&1 || { tail -40 "$work/log"; exit 1; }
clang -O3 -march=x86-64-v2 -o "$work/plain" "$work/plain.c"
for run in 1 2 3 4 5; do
    "$program/out/distance_speed" >>"$work/here"
    "$work/plain" >>"$work/there"
done

awk '
    FNR == NR { key = $1 " " $2; if (!(key in here)) order[++n] = key; if (!(key in here) || $4 / $3 < here[key]) here[key] = $4 / $3; sum[key] = $5; next }
    { key = $1 " " $2; if (!(key in there) || $4 / $3 < there[key]) there[key] = $4 / $3 }
    sum[key] != $5 { print "the totals differ at " key; wrong = 1 }
    END {
        printf "%-8s %5s %10s %10s %6s\n", "metric", "bytes", "here ns", "C ns", "ratio"
        for (i = 1; i <= n; i++) {
            split(order[i], part, " ")
            printf "%-8s %5d %10.1f %10.1f %6.2f\n", part[1], part[2], here[order[i]], there[order[i]], here[order[i]] / there[order[i]]
        }
        exit wrong
    }' "$work/here" "$work/there"
