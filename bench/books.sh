#!/bin/sh
# Nanoseconds per look-up of the two books at three sizes in scrambled order, 200,000 clusters founded and
# joined into one, and a part that takes the least member from it, beside plain C with an open-addressed
# table at -O3, in one run. Both sides do the same calls on the same numbers, and their totals must agree.
# A number is counted up or down behind a question for its count, on both sides. Wants rt and clang. It
# works in a temporary folder and leaves nothing behind.
# Its arguments, where there are any, are other sizes, and the last is that of the cluster.
set -eu
root=$(cd "$(dirname "$0")/.." && pwd)
work=$(mktemp -d)
trap 'rm -rf "$work"' EXIT
[ $# -gt 0 ] || set -- 1000 20000 200000
for size in "$@"; do
    case $size in
        *[!0-9]* | '') echo "sizes are numbers from 1 to 1,000,000"; exit 2 ;;
    esac
    if [ "${#size}" -gt 7 ] || [ "$size" -lt 1 ] || [ "$size" -gt 1000000 ]; then
        echo "sizes are numbers from 1 to 1,000,000"
        exit 2
    fi
    last=$size
done
sizes=$(echo "$*" | tr ' ' ',')

mkdir -p "$work/crates"
for name in vec_record number_map count_book label_book; do
    mkdir "$work/crates/$name"
    cp -r "$root/crates/$name/src" "$root/crates/$name/specs" "$root/crates/$name/proofs" "$work/crates/$name/"
done
cp "$root/HANDLES" "$work/"
{
    printf 'vec_record:\nnumber_map:\ncount_book: vec_record number_map\nlabel_book: vec_record number_map slab\n'
    printf 'books_speed: vec_record count_book label_book\n'
} >"$work/crates.txt"
program="$work/crates/books_speed"
mkdir -p "$program/src" "$program/specs" "$program/proofs"
touch "$program/specs/Lib.antt" "$program/proofs/Lib.antt"

cat >"$program/src/main.rt" <<RATTLE
#![tactic(auto)]

const SIZES: &[u32] = &[$sizes];
const CLUSTER: u32 = $last;
RATTLE
cat >>"$program/src/main.rt" <<'RATTLE'
const ROUNDS: u32 = 4_000_000;

use count_book::CountBook;
use label_book::LabelBook;
use std::alloc::{AllocError, Global};
use std::io;
use std::time::Instant;
use vec_record::{Groups, Numbers};

// The number of an entry: an odd factor gives each entry another one.
fn scrambled(entry: u32) -> u32 {
    entry.wrapping_mul(2654435761)
}

// The number that a round asks for.
fn asked(round: u32, size: u32) -> u32 {
    if size == 0 {
        return 0;
    }
    scrambled(round.wrapping_mul(7919) % size)
}

// A book in which every other number is core.
fn counts(alloc: Global, size: u32) -> Result<CountBook, AllocError> {
    let mut book = CountBook::new(alloc, 5);
    for entry in 0..size {
        let number = scrambled(entry);
        if book.count_of(number).is_none() {
            book.enter(number, 4 + entry % 2, None)?;
        }
    }
    Ok(book)
}

fn count_all(book: &CountBook, size: u32) -> u32 {
    let mut total = 0u32;
    for round in 0..ROUNDS {
        total = total.wrapping_add(book.count_of(asked(round, size)).unwrap_or(0));
    }
    total
}

fn cores(book: &CountBook, size: u32) -> u32 {
    let mut total = 0u32;
    for round in 0..ROUNDS {
        total = total.wrapping_add(book.is_core(asked(round, size)) as u32);
    }
    total
}

fn add_all(book: &mut CountBook, size: u32) -> u32 {
    let mut total = 0u32;
    for round in 0..ROUNDS {
        let number = asked(round, size);
        if book.count_of(number).is_some() {
            total = total.wrapping_add(book.add_one(number) as u32);
        }
    }
    total
}

fn drop_all(book: &mut CountBook, size: u32) -> u32 {
    let mut total = 0u32;
    for round in 0..ROUNDS {
        let number = asked(round, size);
        if book.count_of(number).is_some() {
            total = total.wrapping_add(book.drop_one(number) as u32);
        }
    }
    total
}

fn label_all(book: &LabelBook, size: u32) -> u32 {
    let mut total = 0u32;
    for round in 0..ROUNDS {
        total = total.wrapping_add(book.label_of(asked(round, size)).unwrap_or(0));
    }
    total
}

// Founds a cluster of a core without label.
fn found(book: &mut LabelBook, alloc: Global, core: u32) -> Result<(), AllocError> {
    if book.label_of(core).is_some() {
        return Ok(());
    }
    let mut list = Numbers::new(alloc);
    list.push(core)?;
    book.found(&list)?;
    Ok(())
}

// Joins two clusters.
fn join(book: &mut LabelBook, alloc: Global, a: u32, b: u32) -> Result<u32, AllocError> {
    if a == b || book.label_of(a) != Some(a) || book.label_of(b) != Some(b) {
        return Ok(a);
    }
    let mut labels = Numbers::new(alloc);
    labels.push(a)?;
    labels.push(b)?;
    book.join(&labels, &Numbers::new(alloc))
}

// Takes its label from a cluster.
fn behead(book: &mut LabelBook, alloc: Global, label: u32) -> Result<u32, AllocError> {
    if book.label_of(label) != Some(label) {
        return Ok(0);
    }
    let mut lost = Numbers::new(alloc);
    lost.push(label)?;
    let labels = book.part(label, &lost, &Groups::new(alloc))?;
    Ok(labels.as_slice().first().copied().unwrap_or(0))
}

fn singles(book: &mut LabelBook, alloc: Global, size: u32) -> Result<(), AllocError> {
    for entry in 0..size {
        found(book, alloc, scrambled(entry))?;
    }
    Ok(())
}

fn joined(book: &mut LabelBook, alloc: Global, size: u32) -> Result<u32, AllocError> {
    let mut label = scrambled(0);
    for entry in 1..size {
        label = join(book, alloc, label, scrambled(entry))?;
    }
    Ok(label)
}

// Says how long a measurement took.
fn say(
    rt: &HostRuntime,
    call: &str,
    size: u32,
    rounds: u32,
    start: Instant,
    total: u32,
) -> io::Result<()> {
    println!(rt; "{call} {size} {rounds} {} {total}", start.elapsed(rt)?.as_nanos())
}

fn time_counts(rt: &HostRuntime, book: &CountBook, size: u32) -> io::Result<()> {
    let start = Instant::now(rt)?;
    let total = count_all(book, size);
    say(rt, "count_of", size, ROUNDS, start, total)
}

fn time_cores(rt: &HostRuntime, book: &CountBook, size: u32) -> io::Result<()> {
    let start = Instant::now(rt)?;
    let total = cores(book, size);
    say(rt, "is_core", size, ROUNDS, start, total)
}

fn time_adding(rt: &HostRuntime, book: &mut CountBook, size: u32) -> io::Result<()> {
    let start = Instant::now(rt)?;
    let total = add_all(book, size);
    say(rt, "add_one", size, ROUNDS, start, total)
}

fn time_dropping(rt: &HostRuntime, book: &mut CountBook, size: u32) -> io::Result<()> {
    let start = Instant::now(rt)?;
    let total = drop_all(book, size);
    say(rt, "drop_one", size, ROUNDS, start, total)
}

fn time_labels(rt: &HostRuntime, book: &LabelBook, size: u32) -> io::Result<()> {
    let start = Instant::now(rt)?;
    let total = label_all(book, size);
    say(rt, "label_of", size, ROUNDS, start, total)
}

fn time_founding(rt: &HostRuntime, book: &mut LabelBook, size: u32) -> io::Result<()> {
    let start = Instant::now(rt)?;
    singles(book, rt.alloc(), size)?;
    say(rt, "found", size, size, start, size)
}

fn time_joining(rt: &HostRuntime, book: &mut LabelBook, size: u32) -> io::Result<u32> {
    let start = Instant::now(rt)?;
    let label = joined(book, rt.alloc(), size)?;
    say(rt, "join", size, size, start, label)?;
    Ok(label)
}

fn time_parting(rt: &HostRuntime, book: &mut LabelBook, label: u32) -> io::Result<()> {
    let start = Instant::now(rt)?;
    let next = behead(book, rt.alloc(), label)?;
    say(rt, "part", CLUSTER, 1, start, next)
}

fn look_up_counts(rt: &HostRuntime, size: u32) -> io::Result<()> {
    let mut book = counts(rt.alloc(), size)?;
    time_counts(rt, &book, size)?;
    time_cores(rt, &book, size)?;
    time_adding(rt, &mut book, size)?;
    time_dropping(rt, &mut book, size)
}

fn look_up_labels(rt: &HostRuntime, size: u32) -> io::Result<()> {
    let mut book = LabelBook::new(rt.alloc());
    singles(&mut book, rt.alloc(), size)?;
    time_labels(rt, &book, size)
}

fn change_clusters(rt: &HostRuntime) -> io::Result<()> {
    let mut book = LabelBook::new(rt.alloc());
    time_founding(rt, &mut book, CLUSTER)?;
    let label = time_joining(rt, &mut book, CLUSTER)?;
    time_parting(rt, &mut book, label)
}

fn main(rt: HostRuntime) -> io::Result<()> {
    for size in SIZES {
        look_up_counts(&rt, *size)?;
        look_up_labels(&rt, *size)?;
    }
    change_clusters(&rt)
}
RATTLE

cat >"$work/plain.c" <<'PLAIN'
#include <stdint.h>
#include <stdio.h>
#include <stdlib.h>
#include <string.h>
#include <time.h>

#define ROUNDS 4000000u

static double now(void) {
    struct timespec t;
    clock_gettime(CLOCK_MONOTONIC, &t);
    return t.tv_sec * 1e9 + t.tv_nsec;
}

static uint32_t scrambled(uint32_t entry) { return entry * 2654435761u; }
static uint32_t asked(uint32_t round, uint32_t size) { return scrambled(round * 7919u % size); }

/* An open-addressed table with room for twice its numbers; each entry has two values. */
typedef struct { uint32_t number, used, a, b; } Entry;
typedef struct { Entry *entries; uint32_t mask; } Table;

static Table table(uint32_t size) {
    uint32_t room = 16;
    while (room < 2 * size) room *= 2;
    return (Table){calloc(room, sizeof(Entry)), room - 1};
}

static inline Entry *find(Table *t, uint32_t number) {
    uint32_t at = (uint32_t)((number * 11400714819323198485ull) >> 32) & t->mask;
    while (t->entries[at].used && t->entries[at].number != number) at = (at + 1) & t->mask;
    return &t->entries[at];
}

static inline Entry *get(Table *t, uint32_t number) {
    Entry *e = find(t, number);
    return e->used ? e : NULL;
}

static void put(Table *t, uint32_t number, uint32_t a, uint32_t b) {
    *find(t, number) = (Entry){number, 1, a, b};
}

/* Clusters under their keys; a core's entry has the key and its place in the list. */
typedef struct { uint32_t label, length, room, *members; } Cluster;

#define MEASURE(name, size, rounds, work) { \
    double start = now(); \
    uint32_t total = 0; \
    work \
    printf(name " %u %u %.0f %u\n", size, rounds, now() - start, total); \
}

#define LOOK(name, work) MEASURE(name, size, ROUNDS, \
    for (uint32_t round = 0; round < ROUNDS; round++) { uint32_t number = asked(round, size); work })

static void founded(Table *places, Cluster *clusters, uint32_t key, uint32_t core) {
    if (get(places, core)) return;
    clusters[key] = (Cluster){core, 1, 4, malloc(4 * sizeof(uint32_t))};
    clusters[key].members[0] = core;
    put(places, core, key, 0);
}

static uint32_t joined(Table *places, Cluster *clusters, uint32_t x, uint32_t y) {
    uint32_t into = get(places, x)->a, from = get(places, y)->a;
    if (clusters[into].length < clusters[from].length) { uint32_t k = into; into = from; from = k; }
    Cluster *large = &clusters[into], *small = &clusters[from];
    while (large->room < large->length + small->length) {
        large->room *= 2;
        large->members = realloc(large->members, large->room * sizeof(uint32_t));
    }
    for (uint32_t i = 0; i < small->length; i++) {
        Entry *e = get(places, small->members[i]);
        e->a = into;
        e->b = large->length;
        large->members[large->length++] = small->members[i];
    }
    if (small->label < large->label) large->label = small->label;
    free(small->members);
    *small = (Cluster){0};
    return large->label;
}

static uint32_t beheaded(Table *places, Cluster *clusters, uint32_t label) {
    Entry *e = get(places, label);
    Cluster *cluster = &clusters[e->a];
    uint32_t last = cluster->members[--cluster->length];
    cluster->members[e->b] = last;
    get(places, last)->b = e->b;
    if (cluster->length == 0) return 0;
    uint32_t least = cluster->members[0];
    for (uint32_t i = 1; i < cluster->length; i++)
        if (cluster->members[i] < least) least = cluster->members[i];
    cluster->label = least;
    return least;
}

int main(int argc, char **argv) {
    uint32_t size = 0;
    for (int s = 1; s < argc; s++) {
        size = (uint32_t)atoi(argv[s]);
        Table rows = table(size);
        for (uint32_t i = 0; i < size; i++) put(&rows, scrambled(i), 4 + i % 2, 0);
        LOOK("count_of", Entry *e = get(&rows, number); total += e ? e->a : 0;)
        LOOK("is_core", Entry *e = get(&rows, number); total += e && e->a >= 5;)
        LOOK("add_one", if (get(&rows, number)) { Entry *e = get(&rows, number); total += ++e->a == 5; })
        LOOK("drop_one", if (get(&rows, number)) { Entry *e = get(&rows, number); total += e->a-- == 5; })
        Table places = table(size);
        Cluster *clusters = calloc(size, sizeof(Cluster));
        for (uint32_t i = 0; i < size; i++) founded(&places, clusters, i, scrambled(i));
        LOOK("label_of", Entry *e = get(&places, number); total += e ? clusters[e->a].label : 0;)
    }
    Table places = table(size);
    Cluster *clusters = calloc(size, sizeof(Cluster));
    MEASURE("found", size, size,
        for (uint32_t i = 0; i < size; i++) founded(&places, clusters, i, scrambled(i));
        total = size;)
    uint32_t label = scrambled(0);
    MEASURE("join", size, size,
        for (uint32_t i = 1; i < size; i++) label = joined(&places, clusters, label, scrambled(i));
        total = label;)
    MEASURE("part", size, 1u, total = beheaded(&places, clusters, label);)
    return 0;
}
PLAIN

(cd "$program" && rt run) >"$work/log" 2>&1 || { tail -40 "$work/log"; exit 1; }
grep -E '^[a-z_]+ [0-9]+ [0-9]+ [0-9]+ [0-9]+$' "$work/log" >"$work/here"
clang -O3 -march=x86-64-v2 -o "$work/plain" "$work/plain.c"
"$work/plain" "$@" >"$work/there"

paste -d ' ' "$work/here" "$work/there" | awk '
    BEGIN { printf "%-9s %8s %12s %12s %6s\n", "call", "size", "here ns", "C ns", "ratio" }
    NF != 10 || $1 != $6 || $5 != $10 { print "the runs differ at " $1 " " $2; wrong = 1 }
    { printf "%-9s %8d %12.1f %12.1f %6.2f\n", $1, $2, $4 / $3, $9 / $8, ($4 / $3) / ($9 / $8) }
    END { exit wrong }'
