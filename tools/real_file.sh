#!/usr/bin/env bash
# Runs the built program on real files in a temporary folder, and compares its status, what it says and what it
# leaves with what is due: also with closed descriptors, without room or permission, beside a second program, and
# killed in mid-run. Where a tracer of system calls is there, it counts the syncs and looks at the order of the
# calls. Its own status is 0 where all is as it should be. What can't be tried on this machine is said and skipped.
# Wants the built program: make demo. Where it isn't there, nothing is run and the status is 0.
set -u
top=$(cd "$(dirname "$0")/.." && pwd)
built=$top/crates/densewh/out/densewh
[ -x "$built" ] || { echo "real file: skipped, since the program isn't built (make demo)"; exit 0; }
work=$(mktemp -d)
trap 'umount "$work/small" 2>/dev/null; rm -rf "$work"' EXIT
chmod 755 "$work"
program=$work/densewh
cp "$built" "$program" && chmod 755 "$program" || exit 1
failed=0
usage='usage: once METRIC DIM EPS MINPTS, init METRIC DIM EPS MINPTS CAP, serve, check, trial SEED COUNT\n'
five='batch\n+,1,0\n+,2,1\n+,3,2\n+,4,3\n+,5,4\nend\n'
receipt='ok 1 +5 -0 noise 1 created 1 absorbed 3 merged 0 removed 0 reduced 0 split 0\n'
none='records 0 cores 0 borders 0 noise 0 clusters 0\n'
all='1 core 1\n2 core 1\n3 core 1\n4 core 1\n5 core 1\nrecords 5 cores 5 borders 0 noise 0 clusters 1\n'

fail() {
    echo "real file: $1"
    failed=1
}

skip() {
    echo "real file: skipped: $1"
}

# enter NAME: a folder of its own.
enter() {
    mkdir "$work/$1" && cd "$work/$1" || exit 1
}

# ended STATUS GOT SAID WHAT: a run ended as is due and said the text, with one line of advice where the status isn't 0.
ended() {
    local lines=1
    [ "$1" != 0 ] || lines=0
    printf '%b' "$3" >"$work/due"
    [ "$2" = "$1" ] || fail "$4 ended with $2 and not with $1"
    cmp -s "$work/due" "$work/said" || fail "$4 said: $(cat "$work/said")"
    [ "$(wc -l <"$work/errors")" -eq "$lines" ] || fail "$4 with status $2 explained: $(cat "$work/errors")"
}

# due STATUS SAID INPUT WORD..: a run in this folder on this input ends with the status and says the text.
due() {
    local status=$1 said=$2 input=$3
    shift 3
    printf '%b' "$input" | "$program" "$@" >"$work/said" 2>"$work/errors"
    ended "$status" "$?" "$said" "'$*'"
}

# advice TEXT: the last run explained itself by a line with the text.
advice() {
    grep -qF -- "$1" "$work/errors" || fail "no word of '$1' in: $(cat "$work/errors")"
}

# bytes_at PLACE BYTES: the file of this folder has the bytes there, in hexadecimal digits.
bytes_at() {
    local count=$((${#2} / 2)) found
    found=$(od -An -v -tx1 -j "$1" -N "$count" warehouse.idb | tr -d ' \n')
    [ "$found" = "$2" ] || fail "the bytes from $1 on are $found and not $2"
}

# length LENGTH: the file of this folder has so many bytes.
length() {
    local found
    found=$(wc -c <warehouse.idb)
    [ "$found" -eq "$1" ] || fail "the file has $found bytes and not $1"
}

# store NAME: a folder with a store of five records, of which a copy is kept.
store() {
    enter "$1"
    due 0 'born\n' '' init l1 1 1 2 100
    due 0 "$receipt" "$five" serve
    cp warehouse.idb "$work/kept"
}

# unchanged WHAT: the store is as it was, byte by byte and by its report.
unchanged() {
    cmp -s warehouse.idb "$work/kept" || fail "$1 changed the store"
    due 0 "$all" 'report\n' serve
}

# A store that is born, three batches in three runs, and its report.
enter three
due 6 'blank store\n' '' serve
advice 'make one with: densewh init'
[ ! -e warehouse.idb ] || fail 'serve made a file'
due 0 'born\n' '' init l1 1 1 2 100
due 0 "$receipt" "$five" serve
due 0 'ok 2 +0 -1 noise 0 created 0 absorbed 0 merged 0 removed 0 reduced 0 split 2\n' \
    'batch\n-,3\nend\n' serve
due 0 'ok 3 +1 -0 noise 0 created 0 absorbed 0 merged 2 removed 0 reduced 0 split 0\n' \
    'batch\n+,3,2\nend\n' serve
due 1 'refused 13 at 1\nrefused 17\n' 'batch\n+,3,2\nend\nbatch\n+,9,9\n' serve
advice '13 number is present'
due 0 "$all" 'report\n' serve
due 9 'store exists\n' '' init l1 1 1 2 100
advice "isn't blank"
due 0 "$all" 'report\n' serve

# The examples.
enter examples
due 0 "$(cat "$top/examples/rooms.txt")\n" "$(cat "$top/examples/rooms.csv")" once l1 1 1 3
due 0 'born\n' '' init l1 1 1 3 100
due 0 "$(cat "$top/examples/rooms_day.txt")\n" "$(cat "$top/examples/rooms_day.session")" serve

# The longest input, over a store, and one of a byte more.
enter long
due 0 'born\n' '' init l1 1 1 2 100
head -c 67108864 /dev/zero | tr '\0' '\n' | "$program" serve >"$work/said" 2>"$work/errors"
ended 0 "$?" '' 'the longest input'
head -c 67108865 /dev/zero | tr '\0' '\n' | "$program" serve >"$work/said" 2>"$work/errors"
ended 8 "$?" 'session too long\n' 'an input of a byte more'
advice 'give it in parts'

# The bytes of a new store, and of one with one record: all numbers have their low byte first.
enter bytes
due 0 'born\n' '' init l1 1 1 2 100
length 32768
bytes_at 0 010064656e737768000000000000000000000000
bytes_at 16384 0200000001000000010000000100000001000000020000006400000000000000000000000000000000000000
due 0 'ok 1 +1 -0 noise 1 created 0 absorbed 0 merged 0 removed 0 reduced 0 split 0\n' \
    'batch\n+,3,9\nend\n' serve
length 114712
bytes_at 0 010064656e737768000001000000000003000000
bytes_at 16384 040000000100000001000000010000000100000002000000640000000100000001000000c000000001000000
bytes_at 32768 01000000000000000000000000000000
bytes_at 32784 0300000001000000000000000000000009

# Files that are no stores.
enter zeros
head -c 40000 /dev/zero >warehouse.idb
due 7 'foreign store\n' 'report\n' serve
advice 'put a copy of the store there'
due 9 'store exists\n' '' init l1 1 1 2 100
length 40000
head -c 100 /dev/zero >warehouse.idb
due 6 'blank store\n' 'report\n' serve
due 0 'born\n' '' init l1 1 1 2 100

# Words that have no known form: the first that is off is named, with its limits.
enter words
off() {
    local text=$1
    shift
    due 2 "$usage" '' "$@"
    advice "$text"
}
off "there was no word, or one that isn't UTF-8"
off "there was no word, or one that isn't UTF-8" $'serv\xff'
off '"sever" is no command today' sever
off 'serve takes 0 words behind it, and not 1' serve now
off 'once takes 4 words behind it, and not 3' once l1 1 1
off 'init takes 5 words behind it, and not 4' init l1 1 1 2
off 'METRIC is l1, max or hamming, and not "l3"' once l3 0 1 2
off 'DIM is 1 to 256, or 1 to 2048 for hamming, and not "0"' once l1 0 65536 2
off 'DIM is 1 to 256, or 1 to 2048 for hamming, and not "257"' init max 257 1 2 3
off 'DIM is 1 to 256, or 1 to 2048 for hamming, and not "2049"' once hamming 2049 1 2
off 'EPS is 0 to 65535, and not "65536"' once l1 1 65536 0
off 'EPS is 0 to 65535, and not "+1"' once l1 1 +1 2
off 'MINPTS is 1 to 65535, and not "0"' once hamming 2048 65535 0
off 'MINPTS is 1 to 65535, and not "00000000001"' once hamming 2048 65535 00000000001
off 'CAP is 1 to 200000, and not "200001"' init l1 256 0 65535 200001
due 0 "$none" '' once hamming 2048 65535 0000000001

# An input that can't be read, and an outlet that is full.
enter outside
"$program" once l1 1 1 2 <"$work" >"$work/said" 2>"$work/errors"
ended 4 "$?" '' 'a folder as standard input'
advice 'standard input: Is a directory'
if [ -w /dev/full ]; then
    : >"$work/said"
    printf '+,1,0\n' | "$program" once l1 1 1 2 >/dev/full 2>"$work/errors"
    ended 3 "$?" '' 'a full standard output'
    advice 'standard output: No space left on device'
fi

# Closed descriptors, in all combinations. Where standard output is closed, the file isn't touched.
store closed
cd "$work" || exit 1
for input in '' '<&-'; do
    for output in '' '>&-'; do
        for errors in '' '2>&-'; do
            shut="$input $output $errors"
            expected=0
            : >"$work/said"
            : >"$work/errors"
            rm -rf "$work/born" && mkdir "$work/born" && cd "$work/born" || exit 1
            eval "\"\$program\" init l1 1 1 2 100 </dev/null >\"\$work/said\" 2>\"\$work/errors\" $shut"
            got=$?
            [ -z "$output" ] || expected=3
            [ "$got" = "$expected" ] || fail "init $shut ended with $got and not with $expected"
            [ -z "$output" ] || [ ! -e warehouse.idb ] || fail "init $shut made a file"
            [ -n "$output" ] || due 0 "$none" 'report\n' serve
            cd "$work/closed" || exit 1
            : >"$work/said"
            expected=0
            [ -z "$input" ] || expected=4
            [ -z "$output" ] || expected=3
            printf 'batch\n+,9,9\nend\n' >"$work/input"
            eval "\"\$program\" serve <\"\$work/input\" >\"\$work/said\" 2>\"\$work/errors\" $shut"
            got=$?
            [ "$got" = "$expected" ] || fail "serve $shut ended with $got and not with $expected"
            [ "$expected" != 0 ] || { grep -q '^ok 2' "$work/said" && cp "$work/kept" warehouse.idb; }
            unchanged "serve $shut"
        done
    done
done

# A reader that goes away.
store gone
{ sleep 0.2; printf 'report\nreport\n'; } | { "$program" serve 2>"$work/errors"; echo "$?" >"$work/status"; } | true
: >"$work/said"
ended 3 "$(cat "$work/status")" '' 'a session whose reader goes away'
advice 'standard output: Broken pipe'
unchanged 'a reader that goes away'

# The file taken away, a folder in its place, and the file cut short. Behind 65,536 bytes stand redo items that are done.
store taken
mv warehouse.idb aside
due 6 'blank store\n' 'report\n' serve
mkdir warehouse.idb
due 3 '' 'report\n' serve
advice 'warehouse.idb: Is a directory'
due 3 '' '' init l1 1 1 2 100
rmdir warehouse.idb && mv aside warehouse.idb
unchanged 'a folder in its place'
cut() {
    head -c "$1" "$work/kept" >warehouse.idb
    due "$2" "$3" 'report\n' serve
    length "$1"
}
cut 65536 0 "$all"
cut 65535 7 'damaged page 1 offset 0\n'
cut 32768 7 'damaged page 1 offset 0\n'
cut 32767 7 'foreign store\n'
cut 2 7 'foreign store\n'
cut 1 6 'blank store\n'
cut 0 6 'blank store\n'

# A file and a folder without permission. The user root has every permission, so another one is taken there.
store locked
chmod 444 warehouse.idb
as_user=
if [ "$(id -u)" = 0 ]; then
    as_user='setpriv --reuid=65534 --regid=65534 --clear-groups'
    $as_user "$program" once l1 1 1 2 </dev/null >/dev/null 2>&1 || as_user=skip
fi
if [ "$as_user" = skip ]; then
    skip 'permissions, since root has all and setpriv is missing'
else
    printf 'batch\n+,9,9\nend\n' | $as_user "$program" serve >"$work/said" 2>"$work/errors"
    ended 3 "$?" '' 'a file that is read-only'
    advice 'warehouse.idb: Permission denied'
    chmod 644 warehouse.idb
    unchanged 'a file that is read-only'
    enter shut
    chmod 555 .
    $as_user "$program" init l1 1 1 2 100 </dev/null >"$work/said" 2>"$work/errors"
    ended 3 "$?" '' 'a folder that is read-only'
    advice 'warehouse.idb: Permission denied'
    [ ! -e warehouse.idb ] || fail 'init made a file in a folder that is read-only'
    chmod 755 .
fi

# No room, by the shell's limit on the length of files, in units of 1,024 bytes: a write behind it fails, or a signal
# ends the program. The first limit cuts a write short at the birth, the second comes before the redo items, the third
# and fourth cut one short.
enter full
(trap '' XFSZ && ulimit -f 8 && exec "$program" init l1 1 1 2 100) </dev/null >"$work/said" 2>"$work/errors"
ended 3 "$?" '' 'init without room'
advice 'warehouse.idb: File too large'
length 8192
due 6 'blank store\n' '' serve
due 0 'born\n' '' init l1 1 1 2 100
cp warehouse.idb "$work/new"
for limit in 40 70 90; do
    (trap '' XFSZ && ulimit -f "$limit" && printf '%b' "$five" | "$program" serve) >"$work/said" 2>"$work/errors"
    ended 3 "$?" '' "a batch within $limit units"
    advice 'warehouse.idb: File too large'
    due 0 "$none" 'report\n' serve
done
(ulimit -c 0 && ulimit -f 70 && printf '%b' "$five" | "$program" serve) >"$work/said" 2>/dev/null
got=$?
[ "$got" = 153 ] || fail "a batch that a signal cut off ended with $got and not with 153"
due 0 "$none" 'report\n' serve
due 0 "$receipt" "$five" serve
due 0 "$all" 'report\n' serve

# No room on a small disk.
mkdir "$work/small"
if mount -t tmpfs -o size=64k tmpfs "$work/small" 2>/dev/null; then
    cd "$work/small" || exit 1
    due 0 'born\n' '' init l1 1 1 2 100
    due 3 '' "$five" serve
    advice 'warehouse.idb: No space left on device'
    due 0 "$none" 'report\n' serve
    cd "$work" && umount "$work/small"
else
    skip 'a full disk, since none can be mounted here'
fi

# A second program waits, and a killed one leaves what it had said.
# opened: a session in the background whose input is descriptor 7, behind the receipt of its first batch.
opened() {
    rm -f "$work/pipe"
    mkfifo "$work/pipe"
    : >"$work/first"
    "$program" serve <"$work/pipe" >"$work/first" 2>/dev/null &
    session=$!
    exec 7>"$work/pipe"
    printf 'batch\n+,9,9\nend\n' >&7
    for _ in $(seq 100); do
        [ ! -s "$work/first" ] || return
        sleep 0.05
    done
    fail 'a session gave no receipt within five seconds'
}
store second
opened
due 3 '' 'batch\n+,8,8\nend\n' serve
advice 'another program has the store open'
due 3 '' '' init l1 1 1 2 100
! command -v flock >/dev/null || ! flock -n warehouse.idb true || fail "a session doesn't hold the store's lock"
exec 7>&-
wait "$session" || fail 'the first of two sessions failed'
printf '%b' "$all" | sed 's/^records.*/9 noise\nrecords 6 cores 5 borders 0 noise 1 clusters 1/' >"$work/six"
due 0 "$(cat "$work/six")\n" 'report\n' serve
store killed
opened
printf 'batch\n+,8,8\n' >&7
kill -9 "$session"
wait "$session" 2>/dev/null
exec 7>&-
due 0 "$(cat "$work/six")\n" 'report\n' serve

# The order of the calls on the system, from outside. Each is a letter: w for a write of one byte to the file, W for a
# longer one, S for a sync of the file, F for a sync of the folder, A for an answer.
if ! strace -o /dev/null true 2>/dev/null; then
    skip 'the order of the calls, since strace is missing'
    [ "$failed" = 0 ] && echo 'real file: all as it should be'
    exit "$failed"
fi

# calls PATTERN INPUT WORD..: the calls of a run fit the pattern.
calls() {
    local pattern=$1 input=$2 found
    shift 2
    printf '%b' "$input" >"$work/input"
    strace -y -e trace=pwrite64,fsync,fdatasync,write -o "$work/trace" "$program" "$@" <"$work/input" >"$work/said" 2>/dev/null
    found=$(awk '/^pwrite64\(.* = 1$/ { printf "w"; next } /^pwrite64\(/ { printf "W" }
        /^(fsync|fdatasync)\(.*warehouse\.idb>/ { printf "S"; next } /^(fsync|fdatasync)\(/ { printf "F" }
        /^write\(1<.* = [1-9]/ { printf "A" }' "$work/trace")
    printf '%s\n' "$found" | grep -qE "^$pattern\$" || fail "'$*' makes the calls $found and not $pattern"
}
enter order
calls 'wSFW+SwSA' '' init l1 1 1 2 100
calls 'SFS*W+SwSW+SwSA' "$five" serve
calls 'SFS*AW+SwSW+SwSA' 'report\nbatch\n+,9,9\nend\n' serve

# Each call on the file fails in turn, or is the last before a kill; then the store has the batch or hasn't, and takes
# another one. each CALL HOW STATUS: until the batch is taken whole.
each() {
    local turn got
    for turn in $(seq 40); do
        cp "$work/new" warehouse.idb
        (printf '%b' "$five" | strace -o /dev/null -e trace="$1" -e inject="$1:$2:when=$turn" "$program" serve \
            >"$work/said" 2>"$work/errors") 2>/dev/null
        got=$?
        [ "$got" != 0 ] || return 0
        if [ "$3" = 3 ]; then
            ended 3 "$got" '' "call $turn of $1 with $2"
        else
            [ "$got" = "$3" ] && [ ! -s "$work/said" ] || fail "call $turn of $1 with $2 gives $got and: $(cat "$work/said")"
        fi
        printf 'report\n' | "$program" serve >"$work/said" 2>"$work/errors" || fail "no report behind call $turn of $1 with $2"
        printf '%b' "$none" | cmp -s - "$work/said" || printf '%b' "$all" | cmp -s - "$work/said" ||
            fail "behind call $turn of $1 with $2: $(cat "$work/said")"
        printf 'batch\n+,99,9\nend\n' | "$program" serve >/dev/null 2>&1 || fail "no batch behind call $turn of $1 with $2"
    done
    fail "$1 with $2 failed 40 times"
}
enter turns
each pwrite64 error=ENOSPC 3
each fsync error=EIO 3
each pwrite64 signal=KILL 137
each fsync signal=KILL 137

[ "$failed" = 0 ] && echo 'real file: all as it should be'
exit "$failed"
