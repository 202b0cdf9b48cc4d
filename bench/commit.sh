#!/bin/sh
# Time of a commit of 1, 100 and 1,000 pages on a real file, beside plain C that writes the same bytes with
# four syncs to a file of its own, in one run. Each line is the least of five. Wants rt and a C compiler.
# It works in a temporary folder and leaves nothing behind.
set -eu
root=$(cd "$(dirname "$0")/.." && pwd)
work=$(mktemp -d)
trap 'rm -rf "$work"' EXIT

mkdir -p "$work/crates"
for name in vec_record site_disk page_gate; do
    mkdir "$work/crates/$name"
    cp -r "$root/crates/$name/src" "$root/crates/$name/specs" "$root/crates/$name/proofs" "$work/crates/$name/"
done
cp "$root/HANDLES" "$work/"
printf 'vec_record:\nsite_disk: vec_record\npage_gate: vec_record site_disk thiserror\ncommit_speed: vec_record site_disk page_gate\n' >"$work/crates.txt"
program="$work/crates/commit_speed"
mkdir -p "$program/src" "$program/specs" "$program/proofs/plan" "$program/proofs/head"
touch "$program/specs/Lib.antt"
printf 'pub mod Growing\n' >"$program/proofs/Lib.antt"

cat >"$program/src/main.rt" <<'RATTLE'
//! Times commits of a file that grows.
#![tactic(auto)]

ghost use Rattle.std.specs.Prelude.{◌≡◌, ◌≤◌, ◌+◌, ℕ, List, length, IfOk};
ghost use Rattle.page_gate.specs.Gate.{count_of};
ghost use Rattle.page_gate.specs.Writes.{pairs, new_count, IsPlan};

use page_gate::{Page, PageWrite, PageWrites, birth, commit, open_pages};
use site_disk::FileSite;
use std::alloc::{AllocError, Global};
use std::time::Instant;
use std::{fs, io};

/// A page 1 that counts so many pages.
fn head(alloc: Global, pages: u32) -> Result<Page, AllocError>
    requires { pages ≤ 2000 }
    ensures { IfOk result (λ page. count_of page ≡ pages) }
{
    let mut page = Page::zeros(alloc)?;
    page.set(0, (pages % 256) as u8);
    page.set(1, (pages / 256) as u8);
    Ok(page)
}

/// The writes by which a file of one page grows by some pages.
fn plan(alloc: Global, more: u32) -> Result<PageWrites, AllocError>
    requires { more ≤ 1000 }
    ensures plan { IfOk result (λ w. (pages : List (List ℕ)) → length pages ≡ 1 → IsPlan pages (pairs w)) }
    ensures count { IfOk result (λ w. new_count (pairs w) ≡ more + 2) }
{
    let mut writes = PageWrites::new(alloc);
    let bytes = head(alloc, more + 2)?;
    writes.push(PageWrite { page: 1, bytes })?;
    for page in 2..more + 2 {
        let bytes = Page::zeros(alloc)?;
        writes.push(PageWrite { page, bytes })?;
    }
    Ok(writes)
}

fn commit_more(rt: &HostRuntime, more: u32) -> io::Result<()>
    requires { more ≤ 1000 }
{
    let alloc = rt.alloc();
    let mut site = FileSite::new(rt);
    let first = head(alloc, 2)?;
    if birth(&mut site, &first).is_err() {
        return Err(io::ErrorKind::Other.into());
    }
    let Ok(mut pages) = open_pages(alloc, &mut site) else {
        return Err(io::ErrorKind::Other.into());
    };
    if pages.count() != 2 {
        return Err(io::ErrorKind::Other.into());
    }
    pages.reserve(more as usize)?;
    let writes = plan(alloc, more)?;
    let start = Instant::now(rt)?;
    let done = commit(&mut site, &mut pages, writes);
    let time = start.elapsed(rt)?.as_nanos();
    if done.is_err() {
        return Err(io::ErrorKind::Other.into());
    }
    println!(rt; "{more} {time}")
}

fn main(rt: HostRuntime) -> io::Result<()> {
    for more in [1u32, 100, 1000, 1, 100, 1000, 1, 100, 1000, 1, 100, 1000, 1, 100, 1000] {
        let more = more.min(1000);
        commit_more(&rt, more)?;
        fs::remove_file(&rt, "warehouse.idb")?;
    }
    Ok(())
}
RATTLE

cat >"$program/proofs/Growing.antt" <<'ANTT'
-- Writes of the pages from 1 on, one after another.
use Rattle.std.proofs.Common.{◌≡◌, ℕ, zero, suc, ◌+◌, ◌-◌, ◌*◌, ◌<◌, ◌≤◌, Bool, true, false, List, [], ◌∷◌, ◌++◌, length, take, drop, get_or, set, IsTrue, refl, sym, ap, subst, ◌∙◌, inl, inr, arith}
use Rattle.std.proofs.lemmas.Bool.{cases_eq}
use Rattle.std.proofs.lemmas.Bool.Decides.{nat_tests}
use Rattle.page_gate.specs.declared.page.PageWrite.{PageWrite}
use Rattle.std.specs.Prelude.{◌&&◌, ltb}
use Rattle.std.specs.Int.{w32, from_le_bytes}
use Rattle.page_gate.specs.Gate.{part, number_4, rises, count_of}
use Rattle.page_gate.specs.Writes.{pairs, new_count, first_page, Names, IsPlan}

-- the writes name the pages from an offset on, so many of them
abbrev pub Counts : ℕ → ℕ → List (ℕ × List ℕ) → Type 0
Counts from n [] = n ≡ 0
Counts from n (w ∷ ws) = (w.0 ≡ from) × (1 ≤ n) × Counts (from + 1) (n - 1) ws

pub pairs-push : (ws : List PageWrite) (w : PageWrite) → pairs (ws ++ w ∷ []) ≡ pairs ws ++ (w.page, w.bytes) ∷ []
pairs-push [] w = refl
pairs-push (x ∷ ws) w = ap (λ (l : List (ℕ × List ℕ)). (x.page, x.bytes) ∷ l) (pairs-push ws w)

pub counts_more : (ws : List (ℕ × List ℕ)) (from n : ℕ) (p : ℕ × List ℕ) → Counts from n ws → p.0 ≡ from + n → Counts from (n + 1) (ws ++ p ∷ [])
counts_more [] from n p c e = (omega (arith, c, e), omega arith, omega (arith, c))
counts_more (w ∷ ws) from n p c e =
    let P : ℕ → Type 0 = λ k. Counts (from + 1) k (ws ++ p ∷ []) in
    let k : n - 1 + 1 ≡ n + 1 - 1 = omega (arith, c.1) in
    (c.0, omega arith, subst P k (counts_more ws (from + 1) (n - 1) p c.2 (omega (arith, c.1, e))))

pub count-push : (ws : List (ℕ × List ℕ)) (p : ℕ × List ℕ) → 0 < length ws → new_count (ws ++ p ∷ []) ≡ new_count ws
count-push [] p h = absurd (omega (arith, h))
count-push (w ∷ ws) p h = refl

both : (p q : Bool) → IsTrue p → IsTrue q → IsTrue (p && q)
both true q h k = k
both false q h k = h

rising : (ws : List (ℕ × List ℕ)) (low n limit : ℕ) → Counts (low + 1) n ws → low + n < limit → IsTrue (rises low limit ws)
rising [] low n limit c h = refl
rising (w ∷ ws) low n limit c h =
    let above : IsTrue (ltb low w.0) = grind (arith, nat_tests, c.0) in
    let below : IsTrue (ltb w.0 limit) = grind (arith, nat_tests, c.0, c.1) in
    let rest : IsTrue (rises (low + 1) limit ws) = rising ws (low + 1) (n - 1) limit c.2 (omega (arith, h, c.1)) in
    let P : ℕ → Type 0 = λ k. IsTrue (rises k limit ws) in
    both (ltb low w.0) _ above (both (ltb w.0 limit) _ below (subst P (sym c.0) rest))

named : (ws : List (ℕ × List ℕ)) (from n page : ℕ) → Counts from n ws → from ≤ page → page < from + n → Names page ws
named [] from n page c low high = absurd (omega (arith, c, low, high))
named (w ∷ ws) from n page c low high = elim (cases_eq page from) [
  | inl same ↦ inl (c.0 ∙ sym same)
  | inr other ↦ inr (named ws (from + 1) (n - 1) page c.2 (omega (arith, low, other)) (omega (arith, high, c.1)))
]

pub is_plan : (ws : List (ℕ × List ℕ)) (n : ℕ) (pages : List (List ℕ)) → Counts 1 n ws → 1 ≤ n → new_count ws ≡ n + 1 → length pages ≡ 1 → IsPlan pages ws
is_plan [] n pages c some count one = absurd (omega (arith, c, some))
is_plan (w ∷ ws) n pages c some count one = record {
  first = c.0;
  rising = rising (w ∷ ws) 0 n (new_count (w ∷ ws)) c (omega (arith, count));
  no_fewer = omega (arith, count, one, some);
  whole = λ page low high. named (w ∷ ws) 1 n page c (omega (arith, low, one)) (omega (arith, high, count));
}

-- the number in the first four bytes of a list of zeros of which two were set
four : (a b : ℕ) → from_le_bytes w32 (a ∷ b ∷ 0 ∷ 0 ∷ []) ≡ a + 256 * b
four a b = omega arith

pub two_bytes : (z : List ℕ) (a b n : ℕ) → 4 ≤ length z → ((i : ℕ) → get_or z i 0 ≡ 0) → a + 256 * b ≡ n → count_of (set (set z 0 a) 1 b) ≡ n
unfolding count_of number_4 part
two_bytes [] a b n h z e = absurd (omega (arith, h))
two_bytes (p ∷ []) a b n h z e = absurd (omega (arith, h))
two_bytes (p ∷ q ∷ []) a b n h z e = absurd (omega (arith, h))
two_bytes (p ∷ q ∷ r ∷ []) a b n h z e = absurd (omega (arith, h))
two_bytes (p ∷ q ∷ r ∷ s ∷ rest) a b n h z e =
    let same : r ∷ s ∷ [] ≡ 0 ∷ 0 ∷ [] = cc (z 2, z 3) in
    ap (λ (l : List ℕ). from_le_bytes w32 (a ∷ b ∷ l)) same ∙ four a b ∙ e
ANTT

cat >"$program/proofs/head/Answers.antt" <<'ANTT'
use Rattle.std.proofs.Common.{◌≡◌, ℕ, ◌%◌, ◌/◌, List, set, sym, ap, ◌∙◌, arith}
use Rattle.page_gate.specs.Gate.{count_of}
use Rattle.commit_speed.proofs.Growing.{two_bytes}
use Rattle.commit_speed.proofs.head.Goals as goal

pub returns : goal.returns
returns c =
    let after : c.set-2.new.self ≡ set (set c.in_ok-page.page 0 (c.args.pages % 256)) 1 (c.args.pages / 256) = cc in
    ap count_of after ∙ two_bytes c.in_ok-page.page _ _ c.args.pages (omega (arith, c.in_ok-page.ensures.length)) c.in_ok-page.ensures.zeros (omega arith)
ANTT

cat >"$program/proofs/plan/Invariants.antt" <<'ANTT'
use Rattle.std.proofs.Common.{◌≡◌, ◌≤◌, ◌<◌, ◌+◌, ◌-◌, length}
use Rattle.page_gate.specs.Writes.{pairs, new_count}
use Rattle.commit_speed.proofs.Growing.{Counts}
use Rattle.commit_speed.proofs.plan.Given as goal

abbrev pub invariant-loop-page : goal.invariant-loop-page
invariant-loop-page l = record {
  counts : Counts 1 (l.page - 1) (pairs l.writes);
  some : 0 < length (pairs l.writes);
  count : new_count (pairs l.writes) ≡ l.more + 2;
}
ANTT

cat >"$program/proofs/plan/Answers.antt" <<'ANTT'
use Rattle.std.proofs.Common.{◌≡◌, ◌<◌, ◌+◌, ◌-◌, ℕ, List, ◌∷◌, [], ◌++◌, length, sym, ap, subst, ◌∙◌, arith, length-append}
use Rattle.page_gate.specs.declared.page.PageWrite.{PageWrite}
use Rattle.page_gate.specs.Writes.{pairs, new_count}
use Rattle.commit_speed.proofs.Growing.{Counts, pairs-push, counts_more, count-push, is_plan}
use Rattle.commit_speed.proofs.plan.Goals as goal

pub loop-page-preserved : goal.loop-page-preserved
loop-page-preserved c =
    let before = pairs c.loop-page.writes in
    let entry : ℕ × List ℕ = (c.loop-page.page, c.in_ok-bytes-2.bytes) in
    let all : pairs c.push-in-loop-page.new.self ≡ before ++ entry ∷ [] = ap pairs c.in_ok-push-2.ensures.ok ∙ pairs-push c.loop-page.writes _ in
    let next : Counts 1 (c.loop-page.page - 1 + 1) (before ++ entry ∷ []) = counts_more before 1 (c.loop-page.page - 1) entry c.loop-page.invariant.counts (omega arith) in
    let same : c.loop-page.page - 1 + 1 ≡ c.loop-page.page + 1 - 1 = omega arith in
    record {
      counts = rw all (subst (λ (k : ℕ). Counts 1 k (before ++ entry ∷ [])) same next);
      some = rw all (omega (arith, length-append before (entry ∷ []), c.loop-page.invariant.some));
      count = rw all (count-push before entry c.loop-page.invariant.some ∙ c.loop-page.invariant.count);
    }

pub returns-clause-plan : goal.returns-clause-plan
returns-clause-plan c = λ pages one.
    is_plan (pairs c.loop-page.writes) (c.loop-page.page - 1) pages c.loop-page.invariant.counts (omega arith) (c.loop-page.invariant.count ∙ omega arith) one
ANTT

cat >"$work/plain.c" <<'PLAIN'
#include <fcntl.h>
#include <stdint.h>
#include <stdio.h>
#include <string.h>
#include <time.h>
#include <unistd.h>

static unsigned char page[16384];

static double now(void) {
    struct timespec t;
    clock_gettime(CLOCK_MONOTONIC, &t);
    return t.tv_sec * 1e9 + t.tv_nsec;
}

static int put(int file, const void *bytes, size_t length, off_t at) {
    return pwrite(file, bytes, length, at) == (ssize_t)length ? 0 : -1;
}

int main(void) {
    unsigned counts[] = {1, 100, 1000};
    for (int round = 0; round < 5; round++) {
        for (int k = 0; k < 3; k++) {
            unsigned more = counts[k];
            int file = open("plain.bin", O_RDWR | O_CREAT | O_TRUNC, 0644);
            int bad = file < 0 || put(file, page, 16384, 0) || put(file, page, 16384, 16384) || fsync(file);
            off_t start = 16384 * (off_t)(more + 2);
            unsigned char fields[12] = {0};
            double begin = now();
            bad |= put(file, fields, 8, 8) || put(file, fields + 8, 4, 16);
            for (uint64_t i = 0; i <= more; i++) {
                uint64_t number = i + 1;
                bad |= put(file, &number, 8, start + 16392 * i) || put(file, page, 16384, start + 16392 * i + 8);
            }
            bad |= fsync(file) || put(file, "\1", 1, 1) || fsync(file);
            for (uint64_t i = 0; i <= more; i++) bad |= put(file, page, 16384, 16384 * (i + 1));
            bad |= fsync(file) || put(file, "\0", 1, 1) || fsync(file);
            double took = now() - begin;
            close(file);
            unlink("plain.bin");
            if (bad) return 1;
            printf("%u %.0f\n", more, took);
        }
    }
    return 0;
}
PLAIN

(cd "$program" && rt run >/dev/null 2>"$work/log") || { cat "$work/log"; exit 1; }
cc -O2 -o "$work/plain" "$work/plain.c"
cd "$work"
"$program/out/commit_speed" >here
"$work/plain" >there
grep -m1 'model name' /proc/cpuinfo | sed 's/.*: /processor: /'
for more in 1 100 1000; do
    least() { awk -v m="$more" '$1 == m && (!best || $2 < best) { best = $2 } END { printf "%.0f", best / 1000 }' "$1"; }
    here=$(least here)
    there=$(least there)
    awk -v m="$more" -v h="$here" -v t="$there" 'BEGIN { printf "%5d pages: %8d us here, %8d us in C, ratio %.2f\n", m, h, t, h / t }'
done
