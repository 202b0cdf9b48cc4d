#!/usr/bin/env bash
# Groups the items of a catalogue by 64 coordinates: run.sh [OUT [digits]].
# OUT is the folder for what is made, a new one where none is named. With `digits`, the items are the handwritten digits
# of scikit-learn, and it ends with their distances unless EPS is set. EPS and MINPTS may be set in the environment.
set -eu
here=$(cd "$(dirname "${BASH_SOURCE[0]}")" && pwd)
. "$here/../setup.sh"
python3 "$here/make_items.py" "$out" ${2+"$2"}
python3 "$here/distances.py" near "$out/batch.csv" l1 "${MINPTS:-5}" >"$out/distances.txt"
cat "$out/distances.txt"
[ $# -lt 2 ] || [ -n "${EPS:-}" ] || { echo "now choose: EPS=.. $0 $out $2"; exit 0; }
"$program" once l1 64 "${EPS:-140}" "${MINPTS:-5}" <"$out/batch.csv" >"$out/answer.txt"
python3 "$here/distances.py" places "$out/batch.csv" l1 >"$out/places.csv"
python3 "$top/tools/picture.py" scatter "$out/answer.txt" "$out/places.csv" --title "The items of a catalogue" \
    >"$out/picture.svg"
tail -n 1 "$out/answer.txt"
echo "picture: $out/picture.svg"
