#!/usr/bin/env bash
# Runs the tests of the Python client on the built program, or the one that DENSEWH names. Its status is 0 where they
# pass. Where python3 isn't there or the program isn't built (make demo), nothing is run and the status is 0.
set -u
top=$(cd "$(dirname "$0")/.." && pwd)
program=${DENSEWH:-$top/crates/densewh/out/densewh}
command -v python3 >/dev/null || { echo "client: skipped, since there is no python3"; exit 0; }
[ -x "$program" ] || { echo "client: skipped, since the program isn't built (make demo)"; exit 0; }
said=$(DENSEWH=$program PYTHONDONTWRITEBYTECODE=1 python3 -W error -m unittest discover "$top/clients/python/tests" 2>&1)
status=$?
if [ "$status" -eq 0 ]; then
    echo "client: $(grep '^Ran ' <<<"$said"), all pass"
else
    echo "client: $said"
fi
exit "$status"
