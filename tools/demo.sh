#!/usr/bin/env bash
# Proves and builds the program, and says how far it is: crate by crate, and within a long one by its functions. A
# crate that was proved before and hasn't changed is passed at once. Wants the toolchain's command `rt` on the path.
set -u
cd "$(dirname "$0")/.." || exit 1

# The crates below the program, lowest first: crates.txt has each crate above those that use it.
mapfile -t crates < <(tac crates.txt | awk -F ': *' '
    $1 == "densewh" || $1 in wanted {
        if ($1 != "densewh") print $1
        count = split($2, below, " ")
        while (count) wanted[below[count--]] = 1
    }' | tac)
echo "demo: proves ${#crates[@]} crates and the program above them, builds it, and runs it on two examples."
echo "demo: what is proved already isn't proved again. From nothing it takes about an hour of processor time."
log=$(mktemp)
trap 'rm -f "$log"' EXIT
for place in "${!crates[@]}"; do
    start=$SECONDS
    step="demo: $((place + 1)) of ${#crates[@]}: ${crates[place]}"
    echo "$step .."
    (cd "crates/${crates[place]}" && rt lib) 2>&1 | tee "$log" | sed -u -n 's/^so far: /demo:     so far /p'
    [ "${PIPESTATUS[0]}" -eq 0 ] || { echo "$step isn't proved:"; cat "$log"; exit 1; }
    echo "$step is proved ($((SECONDS - start)) s)"
done
echo "demo: and now the program"
