#!/bin/sh
# Time of an insertion into the tree: 20,000 vectors of 8 and of 128 bytes under the sum of the absolute
# differences, inserted one by one into the empty tree. Beside it, in one run, plain C at -O3 that computes
# the distances of a flat list of as many vectors, 1,000 from each of 20 of them. Wants rt and clang. It works
# in a temporary folder and leaves nothing behind. The least of three each.
set -eu
. "$(dirname "$0")/tree_setup.sh"

cat >>"$program/src/main.rt" <<'RATTLE'

fn main(rt: HostRuntime) -> io::Result<()> {
    for width in [8u32, 128, 8, 128, 8, 128] {
        let mut vectors = Vec::new(rt.alloc());
        let mut state = 12345u32;
        for _ in 0..20000 {
            vectors.push(next_vector(rt.alloc(), width, &mut state)?)?;
        }
        if width == 0 || width > 512 {
            return Ok(());
        }
        let start = Instant::now(&rt)?;
        let tree = insert_all::<Brand>(&rt, width, &vectors, Blank::new(1))?;
        let time = start.elapsed(&rt)?.as_nanos();
        println!(rt; "{width} {time} {}", tree.height())?;
    }
    Ok(())
}
RATTLE

cat >>"$work/plain.c" <<'PLAIN'

int main(void) {
    uint32_t widths[] = {8, 128, 8, 128, 8, 128}, seen = 0;
    for (int w = 0; w < 6; w++) {
        uint32_t width = widths[w], count = 20000;
        uint8_t **all = vectors(width, count);
        double start = now();
        for (uint32_t i = 0; i < count; i += 1000)
            for (uint32_t j = 0; j < count; j++) seen += l1(all[i], all[j], width) < 10;
        printf("%u %.0f %u\n", width, (now() - start) / 20 / count * 1000, seen);
    }
    return 0;
}
PLAIN

measure
for width in 8 128; do
    least() { awk -v w="$width" '$1 == w && (!best || $2 < best) { best = $2 } END { print best }' "$1"; }
    height=$(awk -v w="$width" '$1 == w { print $3; exit }' here)
    awk -v w="$width" -v t="$(least here)" -v d="$(least there)" -v h="$height" \
        'BEGIN { printf "%3d bytes: %.1f us an insertion, height %d; a distance in C %.1f ns\n", w, t / 20000 / 1000, h, d / 1000 }'
done
