# Read by the run.sh of each example: finds python3 and the program, and the folder `out` for what is made. That is the
# folder of the first word, or a new one under the system's folder for temporary files.
# DENSEWH names another program to run, as tools/unproved.sh.
top=$(cd "$(dirname "${BASH_SOURCE[0]}")/.." && pwd)
program=${DENSEWH:-$top/crates/densewh/out/densewh}
export PYTHONDONTWRITEBYTECODE=1
command -v python3 >/dev/null || { echo "$0: python3 is wanted"; exit 1; }
[ -x "$program" ] || { echo "$0: the program isn't built: make demo"; exit 1; }
out=${1:-$(mktemp -d)}
mkdir -p "$out" && out=$(cd "$out" && pwd)
