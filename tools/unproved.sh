#!/usr/bin/env bash
# Runs the program without proving it: unproved.sh WORD.. It is built anew each time, which takes most of a minute, and is
# run in an empty folder that isn't kept, so only `once` serves here. Wants the toolchain's command `rt` on the path.
cd "$(dirname "$0")/../crates/densewh" && exec rt try -- "$@"
