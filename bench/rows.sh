#!/usr/bin/env bash
# Prints how many rows a second ./c65 runs, and beside it sim65 where that is installed.
# Usage, at the top of the repository: bench/rows.sh [OUTER]
# The image is three nested loops that add to the bytes of a page, 256 times over, OUTER times (1 to 255, else 255):
# OUTER * 328,194 rows and a few, so 83.7 million with 255.
set -eu
outer=${1:-255}
image=$(mktemp)
trap 'rm -f "$image"' EXIT
# sim65, version 2, 6502, sp at $00, load and reset at $0200, and then
#   LDA #OUTER; STA $10; LDY #0; LDX #0
#   loop: LDA $0300,X; ADC #1; STA $0300,X; DEX; BNE loop; DEY; BNE loop; DEC $10; BNE loop
#   LDA #0; JMP $FFF9
{
    printf 'sim65\x02\x00\x00\x00\x02\x00\x02'
    printf "\\xA9\\x$(printf %02X "$outer")"
    printf '\x85\x10\xA0\x00\xA2\x00'
    printf '\xBD\x00\x03\x69\x01\x9D\x00\x03\xCA\xD0\xF5\x88\xD0\xF2\xC6\x10\xD0\xEE'
    printf '\xA9\x00\x4C\xF9\xFF'
} > "$image"
rows=$((outer * (256 * (256 * 5 + 2) + 2) + 7))

# the processor seconds of a command
seconds() {
    local TIMEFORMAT=%U
    { time "$@" > /dev/null 2>&1; } 2>&1
}

report() {
    awk -v name="$1" -v rows="$rows" -v used="$2" 'BEGIN {
        if (used > 0) printf "%s: %d rows in %.2f s, %.0f million rows a second\n", name, rows, used, rows / used / 1000000
        else printf "%s: %d rows in no time that was measured\n", name, rows
    }'
}

used=$(seconds ./c65 run -x $((rows * 8)) "$image") || { echo "./c65 run failed" >&2; exit 1; }
report c65 "$used"
if command -v sim65 > /dev/null; then
    used=$(seconds sim65 "$image") || { echo "sim65 failed" >&2; exit 1; }
    report sim65 "$used"
fi
