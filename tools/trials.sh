#!/usr/bin/env bash
# Runs trials with the built program, or the one that DENSEWH names, and compares what it says with what
# tools/trial_cases.py computes from the rules. Its status is 0 where all is the same. Where python3 isn't there or the
# program isn't built (make demo), nothing is run and the status is 0.
set -u
top=$(cd "$(dirname "$0")/.." && pwd)
program=${DENSEWH:-$top/crates/densewh/out/densewh}
command -v python3 >/dev/null || { echo "trials: skipped, since there is no python3"; exit 0; }
[ -x "$program" ] || { echo "trials: skipped, since the program isn't built (make demo)"; exit 0; }
failed=0
for words in "1 3" "7 300" "10 1000" "3 2000" "4294967295 1"; do
    # shellcheck disable=SC2086
    diff <(python3 "$top/tools/trial_cases.py" $words | tail -n 2) <("$program" trial $words) >/dev/null ||
        { echo "trials: trial $words says something else"; failed=1; }
done
[ "$failed" -ne 0 ] || echo "trials: five, all as computed"
exit "$failed"
