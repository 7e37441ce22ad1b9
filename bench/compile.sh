#!/usr/bin/env bash
# Prints how long ./c65 (or the program that C65 names) takes to compile, and how much memory it needs.
# Usage, at the top of the repository: bench/compile.sh
#   1. a program of 255 functions: compiled, linked and started, without the optimiser and under -O and -Oirs
#   2. one function of 256, 512 and 1,024 lines, with loops and branches, without the optimiser and under -O and -Oirs, and how
#      its time grows where its lines are doubled
#   3. sources of 1 KB to 1 MB: declarations alone, and functions up to what fits an image, in nanoseconds a byte; the functions
#      under -O as well, and a megabyte of functions as text
#   4. a unit of 100,000 declarations of 50,000 names
#   5. the least of some bounds of memory within which 1 MiB of source compiles
set -eu
c65=${C65:-./c65}
folder=$(mktemp -d)
trap 'rm -rf "$folder"' EXIT

# The program of N functions: each mixes its argument with a number of a fixed sequence, and main calls all of them.
functions() {
    awk -v n="$1" 'BEGIN {
        s = n
        for (i = 0; i < n; i++) {
            printf "unsigned f%d(unsigned x){return(x*3u+%du)^(x>>1);}\n", i, s
            s = (25173 * s + 13849) % 65536
        }
        print "int main(void){unsigned x=1u;"
        for (i = 0; i < n; i++) printf "x=f%d(x);\n", i
        print "return(int)(x&255u);}"
    }'
}

# One function of so many lines, of which one in sixteen is a loop and two are branches, and a main.
one_function() {
    awk -v n="$1" 'BEGIN {
        s = n
        print "unsigned a, b, c, d, t[16];"
        print "unsigned f(unsigned x, unsigned y) { unsigned i = 0, z = 1;"
        for (i = 0; i < n; i++) {
            s = (25173 * s + 13849) % 65536
            k = i % 16
            if (k == 3) printf "if (z > x) y = y + z; else x = x - %du;\n", s % 256
            else if (k == 7) print "for (i = 0; i < 4u; i++) t[i] = z + i;"
            else if (k == 11) printf "if (a == %du) z = d;\n", s % 1000
            else if (k % 4 == 0) printf "z = (x * 3u + %du) ^ (y >> 1);\n", s
            else if (k % 4 == 1) print "a = b + z;"
            else if (k % 4 == 2) print "b = t[x & 15u];"
            else printf "c = x & %du;\n", s % 256
        }
        print "return x + y + z; }"
        print "int main(void) { return (int)(f(1u, 2u) & 1u); }"
    }'
}

# About so many bytes of declarations, and a main.
declarations() {
    awk -v most="$1" 'BEGIN {
        for (i = 0; bytes < most - 60; i++) {
            line = sprintf("/* item %d */\nstruct s%d { int a, b[%d]; struct s%d *next; };\nextern unsigned f%d(struct s%d *item, unsigned x);\n", i, i, i % 90 + 1, i, i, i)
            bytes += length(line)
            printf "%s", line
        }
        print "int main(void) { return 0; }"
    }'
}

# Two headers that each declare the same 50,000 objects, and a unit of both.
twice_declared() {
    awk 'BEGIN { for (i = 0; i < 50000; i++) printf "extern int a%d;\n", i }' > "$1/first.h"
    cp "$1/first.h" "$1/second.h"
    printf '#include "first.h"\n#include "second.h"\nint main(void) { return 0; }\n' > "$1/many.c"
}

# The least processor milliseconds of five runs of a command.
milliseconds() {
    local TIMEFORMAT='%U %S' best='' used
    for _ in 1 2 3 4 5; do
        used=$({ time "$@" > /dev/null 2>&1 || true; } 2>&1 | awk '{ print ($1 + $2) * 1000 }')
        best=$(awk -v a="${best:-$used}" -v b="$used" 'BEGIN { print a < b ? a : b }')
    done
    echo "$best"
}

report() {
    awk -v what="$1" -v bytes="$2" -v used="$3" 'BEGIN { printf "%s: %d bytes of source, %.1f ms, %.0f ns a byte\n", what, bytes, used, used * 1000000 / bytes }'
}

functions 255 > "$folder/big.c"
size=$(wc -c < "$folder/big.c")
for option in '' -O -Oirs; do
    status=0
    "$c65" go $option "$folder/big.c" > /dev/null || status=$?
    echo "the program of 255 functions ${option:+under $option }ends with status $status"
    report "compiled and linked" "$size" "$(milliseconds "$c65" build $option -o "$folder/big" "$folder/big.c")"
    report "compiled, linked and started" "$size" "$(milliseconds "$c65" go $option -x 1 "$folder/big.c")"
    report "compiled, linked and run to its end" "$size" "$(milliseconds "$c65" go $option "$folder/big.c")"
done

for option in '' -O -Oirs; do
    before=''
    for count in 256 512 1024; do
        one_function "$count" > "$folder/made.c"
        used=$(milliseconds "$c65" text $option "$folder/made.c")
        report "one function of $count lines${option:+ under $option}" "$(wc -c < "$folder/made.c")" "$used"
        if [ -n "$before" ]; then
            awk -v a="$before" -v b="$used" 'BEGIN { printf "  %.2f times the time of half as many lines\n", b / a }'
        fi
        before=$used
    done
done

for size in 1000 4000 16000 64000 250000 1000000; do
    declarations "$size" > "$folder/made.c"
    "$c65" build -o "$folder/made" "$folder/made.c" || { echo "declarations of $size bytes are refused" >&2; exit 1; }
    report "declarations" "$(wc -c < "$folder/made.c")" "$(milliseconds "$c65" build -o "$folder/made" "$folder/made.c")"
done
for count in 8 32 128 512; do
    functions "$count" > "$folder/made.c"
    for option in '' -O; do
        status=0
        "$c65" build $option -o "$folder/made" "$folder/made.c" 2> "$folder/line" || status=$?
        report "$count functions${option:+ under $option} (status $status)" "$(wc -c < "$folder/made.c")" "$(milliseconds "$c65" build $option -o "$folder/made" "$folder/made.c")"
    done
done

functions 20000 | grep -v '^x=\|^return\|^int main' | head -n 17000 > "$folder/made.c"
echo "int main(void) { return 0; }" >> "$folder/made.c"
for option in '' -O -Oirs; do
    report "a megabyte of functions as text${option:+ under $option}" "$(wc -c < "$folder/made.c")" "$(milliseconds "$c65" text $option "$folder/made.c")"
done

twice_declared "$folder"
"$c65" build -o "$folder/made" "$folder/many.c" || { echo "100,000 declarations are refused" >&2; exit 1; }
report "100,000 declarations" "$(cat "$folder"/first.h "$folder"/second.h "$folder/many.c" | wc -c)" "$(milliseconds "$c65" build -o "$folder/made" "$folder/many.c")"

declarations 1048400 > "$folder/made.c"
for bound in 50 75 100 125 150 175 200 250 300 400; do
    if (ulimit -v $((bound * 1024)) && "$c65" build -o "$folder/made" "$folder/made.c") 2> /dev/null; then
        echo "1 MiB of source compiles within $bound MiB of memory"
        exit 0
    fi
done
echo "1 MiB of source needs more than 400 MiB of memory"
