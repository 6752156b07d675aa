#!/usr/bin/env bash
# Times one sample of an Aztec diamond and a hexagon of order 64 and of a square of 128 rows. Prints for each the start that was
# drawn, and the processor time in milliseconds and the peak memory in KiB of the quickest of the given number of runs (5 if left
# out).
set -eu
cd "$(dirname "$0")/.."
runs=${1:-5}
work=$(mktemp -d)
trap 'rm -rf "$work"' EXIT
./tilings gen --shape aztec --order 64 >"$work/aztec-64"
./tilings gen --shape hexagon --order 64 >"$work/hexagon-64"
awk 'BEGIN {
    print "square"
    for (r = 0; r < 128; r++) { line = ""; for (c = 0; c < 128; c++) line = line "#"; print line }
}' >"$work/square-128"
TIMEFORMAT='%U %S'
for shape in aztec-64 hexagon-64 square-128; do
    for ((run = 0; run < runs; run++)); do
        { time ./crates/tilings/out/tilings sample <"$work/$shape" >"$work/sample"; } 2>>"$work/times-$shape"
    done
    start=$(head -n 1 "$work/sample")
    least=$(awk '{ print int(($1 + $2) * 1000) }' "$work/times-$shape" | sort -n | head -n 1)
    # where a status of the process can't be read, the peak is left out
    peak=$(/usr/bin/env time -f %M ./crates/tilings/out/tilings sample <"$work/$shape" 2>&1 >/dev/null || echo -)
    echo "$shape: $start: $least ms, $peak KiB"
done
