#!/usr/bin/env bash
# Prints the bytes and the cycles of the examples, and beside them those of cc65 -O where that is installed.
# Usage, at the top of the repository: bench/examples.sh
set -eu
c65=${C65:-./c65}
folder=$(mktemp -d)
trap 'rm -rf "$folder"' EXIT

# The least number of cycles with which an image ends by itself.
cycles() {
    local low=1 high=1 middle
    while ! ends "$high" "$@"; do high=$((high * 2)); done
    low=$((high / 2 + 1))
    while [ "$low" -lt "$high" ]; do
        middle=$(((low + high) / 2))
        if ends "$middle" "$@"; then high=$middle; else low=$((middle + 1)); fi
    done
    echo "$high"
}

ends() {
    local bound=$1 image=$2 status=0
    shift 2
    "$c65" run -x "$bound" "$image" "$@" < "$folder/input" > /dev/null 2>&1 || status=$?
    [ "$status" != 111 ]
}

# The image of cc65, from copies of the sources, since it writes beside them.
theirs() {
    local copies=() source
    for source in "$@"; do
        cp "$source" "$folder"
        copies+=("$folder/${source##*/}")
    done
    cp examples/*.h "$folder"
    cl65 -t sim6502 -O -o "$folder/theirs" "${copies[@]}" > /dev/null 2>&1
}

# name, input, sources, and the words behind --
measure() {
    local name=$1 input=$2 sources=$3 line
    shift 3
    printf '%s' "$input" > "$folder/input"
    # shellcheck disable=SC2086
    "$c65" build -o "$folder/ours" $sources
    line="$name: $(wc -c < "$folder/ours") bytes, $(cycles "$folder/ours" "$@") cycles"
    if command -v cl65 > /dev/null && theirs $sources; then
        line="$line; cc65 -O: $(wc -c < "$folder/theirs") bytes"
        if command -v sim65 > /dev/null; then
            [ $# = 0 ] || shift
            line="$line, $(sim65 -c "$folder/theirs" "$@" < "$folder/input" | tail -c 30 | grep -o '[0-9]* cycles$')"
        fi
    fi
    echo "$line"
}

measure hello '' examples/hello.c
measure words "$(cat examples/stack.h)" examples/words.c
measure sieve '' examples/sieve.c
measure dates '' examples/dates.c
measure reverse hello 'examples/reverse.c examples/stack.c'
measure arguments '' examples/arguments.c -- one two
