#!/usr/bin/env bash
# A long record in little memory. S and P take turns for the given number of ticks, through a pipe to the watch program,
# which may use 16 MB. Each P ends a window of 2 ticks, so there are half as many windows as ticks.
cd "$(dirname "${BASH_SOURCE[0]}")/.."
ticks=${1:-10000000}
last=$(awk -v n="$ticks" 'BEGIN { print "(S;P)"; for (t = 0; t < n; t++) print t, t % 2 ? "P" : "S" }' | (ulimit -v 16384; crates/watch/out/watch) | tail -n 1)
wanted="windows $((ticks / 2)) ticks $((ticks / 2 * 2))"
[ "$last" = "$wanted" ] || { echo "$last, not $wanted"; exit 1; }
echo "$wanted, as expected"
