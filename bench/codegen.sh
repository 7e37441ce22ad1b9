#!/usr/bin/env bash
# Prints the bytes and the cycles of the programs of bench/programs beside those of cc65, and the geometric means of the
# ratios: of bytes against cc65 -O, and of cycles against cc65 -Oirs. Each program's output and status are compared with
# those that its .txt file has, ours and theirs. cl65 and sim65 have to be installed.
# Usage, at the top of the repository: bench/codegen.sh [OPTION ..], where the options are those of ./c65 build.
set -eu
c65=${C65:-./c65}
folder=$(mktemp -d)
trap 'rm -rf "$folder"' EXIT
for tool in cl65 sim65; do
    command -v "$tool" > /dev/null || { echo "$tool is not installed" >&2; exit 1; }
done

# Says so where a run did not write what it should.
compare() {
    local who=$1 name=$2
    cmp -s "$folder/out" "bench/programs/$name.txt" || echo "$name: $who is wrong" >&2
}

# The cycles of an image of ours: a run ends within a bound exactly where it has done fewer before its last row, of six.
ours() {
    local low=1 high=1048576 middle
    while ! ends "$high"; do low=$((high + 1)) high=$((high * 2)); done
    while [ "$low" -lt "$high" ]; do
        middle=$(((low + high) / 2))
        if ends "$middle"; then high=$middle; else low=$((middle + 1)); fi
    done
    echo $((low + 5))
}

ends() {
    "$c65" run -x "$1" "$folder/ours" < /dev/null 2> "$folder/line" > /dev/null || true
    ! grep -q '^c65: limit' "$folder/line"
}

# The bytes and the cycles of cc65 with these options, from a copy of the source, since it writes beside it.
theirs() {
    local name=$1 status=0
    shift
    cp "bench/programs/$name.c" "$folder"
    cl65 -t sim6502 "$@" -o "$folder/theirs" "$folder/$name.c" > /dev/null 2>&1
    sim65 -c "$folder/theirs" > "$folder/all" || status=$?
    { head -n -1 "$folder/all" && echo "status $status"; } > "$folder/out"
    compare "cc65 $*" "$name"
    echo "$(wc -c < "$folder/theirs") $(tail -n 1 "$folder/all" | tr -dc 0-9)"
}

for source in bench/programs/*.c; do
    name=$(basename "$source" .c)
    "$c65" build "$@" -o "$folder/ours" "$source"
    status=0
    "$c65" run "$folder/ours" < /dev/null > "$folder/out" || status=$?
    echo "status $status" >> "$folder/out"
    compare ours "$name"
    echo "$name $(wc -c < "$folder/ours") $(ours) $(theirs "$name" -O) $(theirs "$name" -Oirs)"
done | awk '
    BEGIN { print "program bytes cycles -O: bytes cycles -Oirs: bytes cycles ratios: bytes/-O cycles/-Oirs" }
    {
        printf "%s %d %d : %d %d : %d %d : %.3f %.3f\n", $1, $2, $3, $4, $5, $6, $7, $2 / $4, $3 / $7
        bytes += log($2 / $4)
        cycles += log($3 / $7)
    }
    END { if (NR > 0) printf "means - - : - - : - - : %.3f %.3f\n", exp(bytes / NR), exp(cycles / NR) }' | column -t
