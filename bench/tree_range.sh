#!/bin/sh
# Time of each distance that a range query over the tree computes: 20,000 vectors of 8 and of 128 bytes under
# the sum of the absolute differences, 200 queries each with a radius of 20 a byte, with one that reaches about
# a tenth of the vectors and with one that reaches all. Beside it, in one run, the same form in C for the same processor:
# leaves of three lists, the parent test without a branch, the sum by the processor's instruction. Wants rt and clang. It works in a temporary
# folder and leaves nothing behind. The least of three each.
set -eu
. "$(dirname "$0")/tree_setup.sh"

cat >>"$program/src/main.rt" <<'RATTLE'

use mtree_node::{InnerEntry, Node};
use vec_record::{Metric, Numbers};

// Whether a query skips an entry by its parent distance.
fn is_skipped(to_object: Option<u32>, reach: u64, parent: u32) -> bool {
    match to_object {
        None => false,
        Some(distance) => reach < u64::from(distance.abs_diff(parent)),
    }
}

// The distance of vectors of one width.
fn apart<L: Ledger>(a: &Vector, b: &Vector, width: u32, steps: &mut Steps<L>) -> u32
    requires { IsWidth width }
{
    if a.as_slice().len() == width as usize && b.as_slice().len() == width as usize {
        L1::distance(a, b, steps)
    } else {
        0
    }
}

// Adds the number of distances that a query computes below a node.
#[cycle(count)]
fn count<L: Ledger>(
    node: &Node,
    levels: u32,
    to_object: Option<u32>,
    centre: &Vector,
    width: u32,
    radius: u32,
    total: &mut u64,
    steps: &mut Steps<L>,
) requires { IsWidth width }
{
    if levels == 0 {
        return;
    }
    match node {
        Node::Leaf { tag: _, entries } => {
            for parent in entries.parents() {
                if !is_skipped(to_object, u64::from(radius), *parent) {
                    *total = total.saturating_add(1);
                }
            }
        }
        Node::Inner { tag: _, entries } => {
            for entry in entries.as_slice() {
                count_below(entry, levels - 1, to_object, centre, width, radius, total, steps);
            }
        }
    }
}

#[cycle(count)]
fn count_below<L: Ledger>(
    entry: &InnerEntry,
    levels: u32,
    to_object: Option<u32>,
    centre: &Vector,
    width: u32,
    radius: u32,
    total: &mut u64,
    steps: &mut Steps<L>,
) requires { IsWidth width }
{
    let reach = u64::from(radius) + u64::from(entry.radius);
    if is_skipped(to_object, reach, entry.parent) {
        return;
    }
    *total = total.saturating_add(1);
    let distance = apart(centre, &entry.object, width, steps);
    if u64::from(distance) <= reach {
        count(entry.child.get(), levels, Some(distance), centre, width, radius, total, steps);
    }
}

// The distances that queries at the first vectors compute, the nanoseconds that they take, and how many
// numbers they find.
fn measured<L: Ledger>(
    rt: &HostRuntime,
    tree: &MTree<L1>,
    vectors: &[Vector],
    width: u32,
    radius: u32,
    blank: Blank,
) -> io::Result<[u64; 3]>
    requires width { IsWidth width }
    requires tree { tree.now.width ≡ width }
    requires name { blank.name ≡ L.name }
    requires parts { blank.parts ≡ L.parts }
    requires some { 0 < blank.parts }
{
    let mut steps = Steps::<L>::new(rt, blank);
    let mut out = Numbers::new(rt.alloc());
    let mut found = 0u64;
    let start = Instant::now(rt)?;
    for centre in vectors {
        if centre.as_slice().len() == width as usize {
            tree.range(centre, radius, &mut out, &mut steps)?;
            found = found.saturating_add(out.len() as u64);
        }
    }
    let time = start.elapsed(rt)?.as_nanos();
    let mut total = 0u64;
    for centre in vectors {
        if let Some(root) = tree.root() {
            count(root, tree.height(), None, centre, width, radius, &mut total, &mut steps);
        }
    }
    Ok([total, time.min(1 << 60) as u64, found])
}

fn main(rt: HostRuntime) -> io::Result<()> {
    for (width, radii) in [(8u32, [160u32, 470, 2040]), (128, [2560, 10050, 32640])] {
        let mut vectors = Vec::new(rt.alloc());
        let mut state = 12345u32;
        for _ in 0..20000 {
            vectors.push(next_vector(rt.alloc(), width, &mut state)?)?;
        }
        if width == 0 || width > 512 {
            return Ok(());
        }
        let tree = insert_all::<Brand>(&rt, width, &vectors, Blank::new(1))?;
        let some = vectors.as_slice().get(..200).unwrap_or_default();
        for radius in [radii, radii, radii].as_flattened() {
            let [total, time, found] = measured::<Brand>(&rt, &tree, some, width, *radius, Blank::new(1))?;
            println!(rt; "{width} {radius} {total} {time} {found}")?;
        }
    }
    Ok(())
}
RATTLE

mkdir -p "$program/proofs/+count" "$program/proofs/measured"
cat >"$program/proofs/+count/Invariants.antt" <<'ANTT'
use Rattle.std.proofs.Common.{◌+◌, ◌*◌}
use Rattle.tree_speed.proofs.+count.Given as goal

abbrev pub decreases-count : goal.decreases-count
decreases-count g l = 2 * l.levels

abbrev pub decreases-count_below : goal.decreases-count_below
decreases-count_below g l = 2 * l.levels + 1
ANTT
cat >>"$program/proofs/main/Invariants.antt" <<'ANTT'

abbrev pub ghosts-measured : goal.ghosts-measured
ghosts-measured a = record { name = a.blank.name; parts = a.blank.parts }
ANTT

cat >>"$work/plain.c" <<'PLAIN'
#include <string.h>

/* The form of the tree's leaves: three lists, the rows behind one another. */
enum { ROWS = 20 };
typedef struct { uint32_t numbers[ROWS], parents[ROWS]; uint8_t *rows; } Leaf;

static inline uint32_t sad8(const uint8_t *a, const uint8_t *b) {
    return _mm_cvtsi128_si32(_mm_sad_epu8(_mm_loadl_epi64((const __m128i *)a), _mm_loadl_epi64((const __m128i *)b)));
}

static inline uint32_t sad128(const uint8_t *a, const uint8_t *b) {
    __m128i sum = _mm_setzero_si128();
    for (int i = 0; i < 128; i += 16)
        sum = _mm_add_epi64(sum, _mm_sad_epu8(_mm_loadu_si128((const __m128i *)(a + i)), _mm_loadu_si128((const __m128i *)(b + i))));
    return _mm_cvtsi128_si32(sum) + _mm_cvtsi128_si32(_mm_srli_si128(sum, 8));
}

#define SCAN(NAME, WIDTH, SAD)                                                                      \
    static uint64_t NAME(const Leaf *leaves, uint32_t count, const uint8_t *centre, uint32_t radius, \
                         uint32_t *found, uint32_t *out) {                                          \
        uint64_t distances = 0;                                                                     \
        for (uint32_t i = 0; i < count; i++) {                                                      \
            const Leaf *leaf = &leaves[i];                                                          \
            uint32_t to_object = SAD(centre, leaf->rows), few = 0;                                  \
            uint32_t low = to_object > radius ? to_object - radius : 0, more = to_object + radius - low; \
            uint8_t places[ROWS];                                                                   \
            for (uint32_t k = 0; k < ROWS; k++) {                                                   \
                places[few] = k;                                                                    \
                few += leaf->parents[k] - low <= more;                                              \
            }                                                                                       \
            for (uint32_t k = 0; k < few; k++)                                                      \
                if (SAD(centre, leaf->rows + WIDTH * places[k]) <= radius) out[(*found)++ % 20000] = leaf->numbers[places[k]]; \
            distances += 1 + few;                                                                   \
        }                                                                                           \
        return distances;                                                                           \
    }
SCAN(scan8, 8, sad8)
SCAN(scan128, 128, sad128)

int main(void) {
    static uint32_t found[20000];
    uint32_t widths[] = {8, 128, 8, 128, 8, 128}, seen = 0;
    for (int w = 0; w < 6; w++) {
        uint32_t width = widths[w], count = 20000 / ROWS;
        uint8_t **all = vectors(width, 20000);
        Leaf *leaves = malloc(count * sizeof *leaves);
        for (uint32_t i = 0; i < count; i++) {
            leaves[i].rows = malloc(ROWS * width);
            for (uint32_t k = 0; k < ROWS; k++) {
                leaves[i].numbers[k] = i * ROWS + k;
                leaves[i].parents[k] = l1(all[i * ROWS], all[i * ROWS + k], width);
                memcpy(leaves[i].rows + width * k, all[i * ROWS + k], width);
            }
        }
        double start = now();
        uint64_t distances = 0;
        for (uint32_t i = 0; i < 200; i++)
            distances += (width == 8 ? scan8 : scan128)(leaves, count, all[i], 20 * width, &seen, found);
        printf("%u %.0f %u\n", width, (now() - start) / distances * 1000, seen);
    }
    return 0;
}
PLAIN

measure
for width in 8 128; do
    flat=$(awk -v w="$width" '$1 == w && (!best || $2 < best) { best = $2 } END { print best / 1000 }' there)
    for radius in $(awk -v w="$width" '$1 == w { print $2 }' here | sort -nu); do
        awk -v w="$width" -v r="$radius" -v c="$flat" \
            '$1 == w && $2 == r && (!best || $4 < best) { best = $4; n = $3; f = $5 }
            END { printf "%3d bytes, radius %5d: %6d distances and %5d numbers a query, %6.1f us, %5.1f ns a distance, %.1f in C, ratio %.2f\n", w, r, n / 200, f / 200, best / 200000, best / n, c, best / n / c }' here
    done
done
