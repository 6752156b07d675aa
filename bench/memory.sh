#!/usr/bin/env bash
# Runs `tilings check` and the bench of heights again and again, each time with one request for memory refused: the
# first, the second, and so on, until a run asks for no more; and then with all requests from one on refused. A run
# without its memory has to end with the status for that, 6 of the program and 1 of the bench, and with nothing written.
# Needs a C compiler, for the few lines that refuse a request.
set -eu
cd "$(dirname "$0")/.."
./tilings check <examples/two-dominoes.txt >/dev/null
(cd crates/heights_bench && rt run -- 1 <stdin >/dev/null 2>&1)
work=$(mktemp -d)
trap 'rm -rf "$work"' EXIT

cc -shared -fPIC -O1 -x c - -o "$work/refuse.so" -ldl <<'END'
#define _GNU_SOURCE
#include <dlfcn.h>
#include <errno.h>
#include <stdlib.h>

static long asked;

static int is_refused(void) {
  const char *at = getenv("REFUSE_AT"), *from = getenv("REFUSE_FROM");
  asked++;
  return (at && asked == atol(at)) || (from && asked >= atol(from));
}

void *malloc(size_t size) {
  void *(*next)(size_t) = dlsym(RTLD_NEXT, "malloc");
  if (is_refused()) { errno = ENOMEM; return 0; }
  return next(size);
}

void *realloc(void *block, size_t size) {
  void *(*next)(void *, size_t) = dlsym(RTLD_NEXT, "realloc");
  if (is_refused()) { errno = ENOMEM; return 0; }
  return next(block, size);
}
END

# The status without memory, the program, its input and its words.
try() {
    local wanted=$1 program=$2 input=$3 way n status
    shift 3
    for way in REFUSE_AT REFUSE_FROM; do
        for n in $(seq 1000); do
            status=0
            env "$way=$n" LD_PRELOAD="$work/refuse.so" "$program" "$@" <"$input" >"$work/out" 2>/dev/null || status=$?
            [ "$status" = 0 ] && break
            if [ "$status" != "$wanted" ] || [ -s "$work/out" ]; then
                echo "$program: $way $n: status $status, $(wc -c <"$work/out") bytes written"
                return 1
            fi
        done
        echo "$program: $way: $((n - 1)) runs with status $wanted and nothing written"
        [ "$status" = 0 ] || return 1
    done
}

# A square of 200 rows, and its drawing.
awk 'BEGIN {
    for (c = 0; c < 100; c++) { row = row "##"; drawn = drawn "><" }
    print "square"
    for (r = 0; r < 200; r++) print row
    print ""
    for (r = 0; r < 200; r++) print drawn
}' >"$work/square"

try 6 crates/tilings/out/tilings examples/two-dominoes.txt check
try 6 crates/tilings/out/tilings "$work/square" check
try 1 crates/heights_bench/out/heights_bench crates/heights_bench/stdin 1
