#!/usr/bin/env bash
# Times numbered words read in order against the bare ChaCha20 generator, in one run, and the same words time by
# time backwards. The argument is how many billions (2^30) of bits each way of reading takes, 1 if left out.
# Fails where a word in order costs more than 1.3 times the generator's, at any of these numbers of words to a time.
set -eu
cd "$(dirname "$0")/../crates/bits_bench"
slices=$((${1:-1} * 512))
rt run -- 16 1 1 >/dev/null 2>&1
status=0
for words in 16 256 8192 32768; do
    times=$((65536 / words))
    echo "$words words to each of $((times * slices)) times: $((words * times * slices * 32)) bits"
    report=$(./out/bits_bench "$words" "$times" "$slices" 2>&1 >/dev/null)
    echo "$report"
    echo "$report" | awk '$1 == "onwards:" && $NF > 1.3 { high = 1 } END { exit high }' || status=1
done
exit "$status"
