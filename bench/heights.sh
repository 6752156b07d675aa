#!/usr/bin/env bash
# Times the boundary circuit, the heights of a tiling and the letters of these heights, on squares, on parallelograms of
# the triangular lattice and on combs, of 64 to 512 columns. Prints nanoseconds of processor time per place of the
# region's rows and columns, the quickest of the given number of runs (20 if left out). Fails where one of the three
# costs more than 2.5 times as much a place at 512 columns as at 128, or where the letters aren't the drawing. Work that
# grew with the columns beyond the places would cost 4 times as much; arrays that no longer fit a near cache cost up to
# twice as much, which the circuit of a comb, down one column and up the next, shows most.
set -eu
cd "$(dirname "$0")/../crates/heights_bench"
runs=${1:-20}
rt run -- 1 <stdin >/dev/null 2>&1
work=$(mktemp -d)
trap 'rm -rf "$work"' EXIT

# The input of a shape with n columns: the region, and a drawing of a tiling.
input() {
    awk -v shape="$1" -v n="$2" '
        BEGIN {
            rows = shape == "comb" ? n - 1 : n
            print shape == "parallelogram" ? "triangle" : "square"
            for (part = 0; part < 2; part++) {
                for (r = 0; r < rows; r++) {
                    line = ""
                    for (c = 0; c < n; c++) {
                        if (shape == "comb" && r > 0) letter = c % 2 ? "." : r % 2 ? "v" : "^"
                        else letter = c % 2 ? "<" : ">"
                        line = line (part == 0 && letter != "." ? "#" : letter)
                    }
                    print line
                }
                if (part == 0) print ""
            }
        }'
}

status=0
for shape in square parallelogram comb; do
    for n in 64 128 256 512; do
        input "$shape" "$n" >"$work/input"
        ./out/heights_bench "$runs" <"$work/input" >"$work/found" 2>"$work/times"
        echo "$shape: $(cat "$work/found"); $(tr '\n' ' ' <"$work/times")"
        grep -q 'the drawing$' "$work/found" || status=1
        if [ "$n" = 128 ]; then cp "$work/times" "$work/small"; fi
    done
    paste -d ' ' "$work/small" "$work/times" |
        awk '{ if ($(NF - 3) > 2.5 * $2) high = 1 } END { exit high }' || status=1
done
exit "$status"
