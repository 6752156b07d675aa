#!/usr/bin/env bash
# Counts the instructions of the built program on full squares with a drawing, and on combs and spirals without one, of
# 64 to 512 rows, by valgrind. Prints instructions per place of the region's rows and columns, without those of a run
# on no input, and the peak memory. Fails where a place of a shape costs more than 1.2 times as much at 512 rows as at
# 128.
set -eu
cd "$(dirname "$0")/.."
./tilings check <examples/two-dominoes.txt >/dev/null
work=$(mktemp -d)
trap 'rm -rf "$work"' EXIT

# The input of a shape with n rows and n columns.
input() {
    awk -v shape="$1" -v n="$2" '
        function comb(r, c) { return r == 0 || c % 2 == 0 }
        BEGIN {
            print "square"
            if (shape == "spiral") {
                dr[0] = 0; dc[0] = 1; dr[1] = 1; dc[1] = 0; dr[2] = 0; dc[2] = -1; dr[3] = -1; dc[3] = 0
                r = 0; c = 0; d = 0; cell[0, 0] = 1
                while (1) {
                    for (turn = 0; turn < 2; turn++) {
                        a = r + dr[d]; b = c + dc[d]; e = a + dr[d]; f = b + dc[d]
                        inside = a >= 0 && a < n && b >= 0 && b < n
                        if (inside && !((a, b) in cell) && !((e, f) in cell)) break
                        d = (d + 1) % 4
                    }
                    if (turn == 2) break
                    r = a; c = b; cell[r, c] = 1
                }
            }
            for (r = 0; r < n; r++) {
                line = ""
                for (c = 0; c < n; c++)
                    line = line ((shape == "spiral" ? (r, c) in cell : shape == "comb" ? comb(r, c) : 1) ? "#" : ".")
                print line
            }
            if (shape == "square")
                for (r = 0; r < n; r++) {
                    line = r == 0 ? "\n" : ""
                    for (c = 0; c < n; c += 2) line = line "><"
                    print line
                }
        }'
}

# The instructions of one run.
count() {
    valgrind --tool=callgrind --callgrind-out-file=/dev/null ./crates/tilings/out/tilings check <"$1" 2>&1 >/dev/null |
        awk '$2 == "Collected" { print $4 }'
}

start=$(count /dev/null)
status=0
for shape in square comb spiral; do
    for n in 64 128 256 512; do
        input "$shape" "$n" >"$work/input"
        env time -f '%M' -o "$work/memory" ./crates/tilings/out/tilings check <"$work/input" >"$work/reply" || true
        work_done=$(($(count "$work/input") - start))
        echo "$shape $n: $((work_done / (n * n))) instructions a place, $(tail -n 1 "$work/memory") KB, $(cat "$work/reply")"
        if [ "$n" = 128 ]; then small=$((work_done * 16)); fi
        if [ "$n" = 512 ] && [ "$((work_done * 5))" -gt "$((small * 6))" ]; then status=1; fi
    done
done
exit "$status"
