#!/usr/bin/env bash
# Runs each example with the built program, in a folder of its own, and compares what it made with what is committed:
# the input, the answer and the picture. Its status is 0 where all is the same. Where python3 isn't there or the program
# isn't built (make demo), nothing is run and the status is 0.
set -u
top=$(cd "$(dirname "$0")/.." && pwd)
program=${DENSEWH:-$top/crates/densewh/out/densewh}
command -v python3 >/dev/null || { echo "examples: skipped, since there is no python3"; exit 0; }
[ -x "$program" ] || { echo "examples: skipped, since the program isn't built (make demo)"; exit 0; }
work=$(mktemp -d)
trap 'rm -rf "$work"' EXIT
failed=0

fail() {
    echo "examples: $1"
    failed=1
}

# same COMMITTED MADE: two files have the same bytes.
same() {
    cmp -s "$1" "$2" || fail "${1#"$top"/} isn't what was made"
}

# example NAME: runs it, and compares each file that it commits beside its scripts and its page.
example() {
    local folder=$top/examples/$1 file
    "$folder/run.sh" "$work/$1" >"$work/said" 2>&1 || fail "$1 ended with $?: $(cat "$work/said")"
    for file in "$folder"/*; do
        case $file in
        *.py | *.sh | *.md | */__pycache__) ;;
        *) same "$file" "$work/$1/${file##*/}" ;;
        esac
    done
}

# The rooms, as on the first page.
cd "$work" || exit 1
"$program" once l1 1 1 3 <"$top/examples/rooms.csv" >once.txt
same "$top/examples/rooms.txt" once.txt
"$program" init l1 1 1 3 100 >/dev/null
"$program" serve <"$top/examples/rooms_day.session" >day.txt
same "$top/examples/rooms_day.txt" day.txt

for name in images sensors catalogue; do
    example "$name"
done
if python3 -c 'import sklearn' 2>/dev/null; then
    python3 "$top/examples/catalogue/make_items.py" "$work/digits" digits || fail "the digits weren't read"
    [ "$(wc -l <"$work/digits/batch.csv")" -eq 1797 ] || fail "there aren't 1797 digits"
else
    echo "examples: skipped: the handwritten digits, since scikit-learn isn't there"
fi
[ "$failed" -ne 0 ] || echo "examples: all as committed"
exit "$failed"
