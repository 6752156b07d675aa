#!/usr/bin/env bash
# Times the kernels on rows of 64 and of 512 heights beside a plain loop of `min` over the same rows, in one run. Prints
# nanoseconds of processor time per height, the quickest of the given number of runs (20 if left out). Fails where the
# lesser of two rows by vectors costs more than 1.5 times the plain loop's.
set -eu
cd "$(dirname "$0")/../crates/lanes_bench"
rt run -- 1 1 >/dev/null 2>&1
report=$(./out/lanes_bench 1000000 "${1:-20}" 2>&1 >/dev/null)
echo "$report"
echo "$report" | awk '
    { time = $(NF - 3) }
    / plain least:/ { plain = time }
    / heights, least:/ && time > 1.5 * plain { high = 1 }
    END { exit high }'
