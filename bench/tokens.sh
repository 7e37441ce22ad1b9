#!/bin/sh
# Times lexing and scanning of a made C file of 1 MiB: comments, names, numbers, strings and punctuators as
# programs have them. The proved program c65_bench_tokens is built first where there is none.
set -eu

top=$(CDPATH='' cd -- "$(dirname -- "$0")/.." && pwd -P)
program=$top/crates/c65_bench_tokens/out/c65_bench_tokens
[ -x "$program" ] || (cd "$top/crates/c65_bench_tokens" && rt run </dev/null >/dev/null 2>&1)

folder=$(mktemp -d)
trap 'rm -rf "$folder"' EXIT
awk 'BEGIN {
    for (i = 0; bytes < 1048000; i++) {
        line = sprintf("/* function %d */\nunsigned f%d(unsigned x, int count)\n{\n    static char text[] = \"line %d\\n\";\n    return (x * 3u + %du) ^ (x >> 1) && text[count++] != 0x%x; // %d\n}\n", i, i, i, i, i, i)
        bytes += length(line)
        printf "%s", line
    }
}' >"$folder/made.c"

size=$(wc -c <"$folder/made.c")
begin=$(date +%s%N)
counts=$("$program" "$folder/made.c")
end=$(date +%s%N)
echo "$size bytes, preprocessing tokens and tokens $counts: $(((end - begin) / 1000000)) ms"
