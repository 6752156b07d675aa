#!/usr/bin/env bash
# Times sweeps of squares of 64, 128 and 512 rows and of a hexagon of order 64, beside a plain loop of `min` and `max` over
# the same heights, in one run. Prints nanoseconds of processor time per inner corner, the quickest of the given number of
# runs (5 if left out). A sweep goes over the corners once for each class, the plain loop once.
set -eu
cd "$(dirname "$0")/.."
runs=${1:-5}
work=$(mktemp -d)
trap 'rm -rf "$work"' EXIT
./tilings gen --shape hexagon --order 64 >"$work/hexagon"
cd crates/sweeps_bench
rt run -- 1 1 <stdin >/dev/null 2>&1
for n in 64 128 512; do
    awk -v n="$n" 'BEGIN {
        print "square"
        for (r = 0; r < n; r++) { line = ""; for (c = 0; c < n; c++) line = line "#"; print line }
    }' >"$work/square"
    ./out/sweeps_bench $((4194304 / (n * n))) "$runs" <"$work/square" 2>&1
done
./out/sweeps_bench 256 "$runs" <"$work/hexagon" 2>&1
