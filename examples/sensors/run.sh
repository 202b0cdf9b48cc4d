#!/usr/bin/env bash
# Keeps the readings of twenty sensors in a store, a batch a day for a week: run.sh [OUT].
# OUT is the folder for the store and for what is made, a new one where none is named. It may not have a store yet.
set -eu
here=$(cd "$(dirname "${BASH_SOURCE[0]}")" && pwd)
. "$here/../setup.sh"
python3 "$here/make_week.py" "$out"
cd "$out"
"$program" init max 2 10 3 100
"$program" serve <week.session >answer.txt
python3 "$top/tools/picture.py" days answer.txt --names names.csv --title "A week of twenty sensors" >picture.svg
grep '^ok' answer.txt
echo "picture: $out/picture.svg"
