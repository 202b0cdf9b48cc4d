#!/bin/sh
# Runs the built tests of the two books with one request for memory refused: the first, the second and so on, until
# a test asks no more often. Each run must pass or end by want of memory: an assertion that fails then is an answer
# that changed, or a book that isn't well formed. Says for each test how many requests were refused, and after how
# many of these it passed all the same. Wants cc, and rt to build the tests where they aren't built; it takes some
# seconds where they are.
set -eu
root=$(cd "$(dirname "$0")/.." && pwd)
work=$(mktemp -d)
trap 'rm -rf "$work"' EXIT

cc -O1 -shared -fPIC -o "$work/refuse.so" "$root/tools/refuse.c" -ldl

# one PROGRAM TEST: tries a test with each request refused.
one() {
    request=1
    passed=0
    while :; do
        status=0
        REFUSED=$request LD_PRELOAD="$work/refuse.so" "$1" "$2" >"$work/log" 2>&1 || status=$?
        if ! grep -q '^refused$' "$work/log"; then
            [ "$status" -eq 0 ] || { cat "$work/log"; echo "$2 fails with all its memory"; exit 1; }
            break
        fi
        if [ "$status" -eq 0 ]; then
            passed=$((passed + 1))
        elif ! grep -q 'error: AllocError$' "$work/log"; then
            cat "$work/log"
            echo "$2 ended otherwise than by want of memory at request $request"
            exit 1
        fi
        request=$((request + 1))
    done
    echo "$2: $((request - 1)) requests refused, one at a time; it passed all the same after $passed"
}

for name in count_book label_book; do
    program=$root/crates/$name/out/${name}_tests
    if [ ! -x "$program" ] || [ -n "$(find "$root/crates/$name/src" -newer "$program")" ]; then
        (cd "$root/crates/$name" && rt test) >"$work/log" 2>&1 || { tail -20 "$work/log"; exit 1; }
    fi
    for test in $("$program" --list | sed -n 's/: test$//p'); do
        one "$program" "$test"
    done
done
