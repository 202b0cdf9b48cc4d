#!/usr/bin/env bash
# Runs one session of the built program, or of the one that DENSEWH names, with one request for memory refused: the first,
# the second and so on, until it asks no more often; behind the first 300 each tenth alone. The session has two batches with
# a refused one between them, questions to a watcher, its drop, and a report. Each run must end with 5, the beginning of the
# answers said and exactly the batches in the store whose receipts were said, or say all that it says with all its memory.
# Its status is 0 where all is so. Wants cc and the built program (make demo); where one isn't there, nothing is run.
set -u
top=$(cd "$(dirname "$0")/.." && pwd)
program=${DENSEWH:-$top/crates/densewh/out/densewh}
command -v cc >/dev/null || { echo "session without memory: skipped, since there is no cc"; exit 0; }
[ -x "$program" ] || { echo "session without memory: skipped, since the program isn't built (make demo)"; exit 0; }
work=$(mktemp -d)
trap 'rm -rf "$work"' EXIT
cd "$work" || exit 1
cc -O1 -shared -fPIC -o refuse.so "$top/tools/refuse.c" -ldl || exit 1
first='batch\n+,1,0\n+,2,1\n+,3,2\n+,4,9\nend\n'
second='batch\n-,2\n+,5,8\n+,6,10\nend\n'
refused='batch\n+,9,1\n+,1,1\nend\n'

fail() {
    echo "session without memory: request $request: $1"
    exit 1
}

# reported FILE: what a store says without the program's advice.
reported() {
    printf 'report\n' | "$program" serve >"$1" 2>/dev/null || fail "no report: status $?"
}

# The store at first, what it reports after each number of batches, and what the session says with all its memory.
request=0
"$program" init l1 1 1 2 100 >said || fail "no birth"
cp warehouse.idb new
reported report0
printf '%b' "$first" | "$program" serve >said || fail "no first batch"
reported report1
printf '%b' "$second" | "$program" serve >said || fail "no second batch"
reported report2
printf '%b' "$first$refused${second}watch 1\ndrop 1\nwatch 1\nreport\n" >session
cp new warehouse.idb
"$program" serve <session >whole 2>/dev/null
[ "$?" -eq 1 ] && [ "$(grep -c '^ok' whole)" -eq 2 ] && [ "$(grep -c '^refused' whole)" -eq 2 ] || fail "not the session"

counted=0
unharmed=0
request=1
while :; do
    cp new warehouse.idb
    REFUSED=$request LD_PRELOAD=./refuse.so "$program" serve <session >said 2>errors
    status=$?
    grep -q '^refused$' errors || break
    counted=$((counted + 1))
    if [ "$status" -eq 5 ]; then
        cmp -s said <(head -c "$(wc -c <said)" whole) || fail "it said $(cat said)"
    else
        [ "$status" -eq 1 ] && cmp -s said whole || fail "status $status, and it said $(cat said)"
        unharmed=$((unharmed + 1))
    fi
    reported report
    cmp -s report "report$(grep -c '^ok' said)" || fail "behind $(grep -c '^ok' said) receipts the store has $(cat report)"
    request=$((request + (request < 300 ? 1 : 10)))
done
[ "$status" -eq 1 ] && cmp -s said whole || fail "status $status with all its memory"
[ "$counted" -gt 0 ] || fail "it couldn't be refused"
echo "session without memory: $counted requests refused, one a run; $unharmed runs said all the same, the others ended with 5;" \
    "each store had exactly the batches whose receipts were said"
