#!/usr/bin/env bash
# Groups images that look alike: run.sh [OUT [IMAGES]].
# OUT is the folder for what is made, a new one where none is named. IMAGES is a folder with PGM, PPM or PNG files;
# where none is named, the example makes its own. EPS and MINPTS may be set in the environment.
set -eu
here=$(cd "$(dirname "${BASH_SOURCE[0]}")" && pwd)
. "$here/../setup.sh"
images=${2:-$out/images}
[ $# -ge 2 ] || python3 "$here/make_images.py" "$images"
python3 "$here/hash_images.py" "$images" "$out"
"$program" once hamming 64 "${EPS:-10}" "${MINPTS:-3}" <"$out/batch.csv" >"$out/answer.txt"
python3 "$here/groups.py" "$out/answer.txt" "$out/names.csv" >"$out/groups.txt"
python3 "$here/groups.py" "$out/answer.txt" "$out/names.csv" "$images" >"$out/picture.svg"
cat "$out/groups.txt"
echo "picture: $out/picture.svg"
