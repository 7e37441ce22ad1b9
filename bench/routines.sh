#!/usr/bin/env bash
# Prints what the routines of the runtime take: for each its bytes and its cycles on one state, the call's six and those of
# RTS counted, and beside them those of cc65's routine of that name, where cc65 is installed.
# The proved program c65_bench_runtime is built first where there is none. cc65's bytes are those that a first call adds to a
# program that has none, less the call's three: 0 where every program has the routine. Its cycles are by sim65.
set -eu

top=$(CDPATH='' cd -- "$(dirname -- "$0")/.." && pwd -P)
program=$top/crates/c65_bench_runtime/out/c65_bench_runtime
[ -x "$program" ] || (cd "$top/crates/c65_bench_runtime" && rt run </dev/null >/dev/null 2>&1)

folder=$(mktemp -d)
trap 'rm -rf "$folder"' EXIT

# A program for sim65 with EAX, Y and the four bytes at sp as given, and with a line in the place of the call. $4000 and
# the bytes at sp lie in its own data.
write_program() {
    local eax=$1 y=$2 tos=$3 line=$4
    [ "$eax" = 16384 ] && eax=data
    [ "$tos" = 16384 ] && tos=data
    cat > "$folder/made.s" <<ASM
        .export _main
        .importzp sp, sreg
        .bss
data:   .res 16
stack:  .res 256
        .code
_main:  lda sp
        pha
        lda sp+1
        pha
        lda #<(stack+128)
        sta sp
        lda #>(stack+128)
        sta sp+1
        lda #<($tos)
        sta stack+128
        lda #>($tos)
        sta stack+129
        lda #.bankbyte($tos)
        sta stack+130
        lda #0
        sta stack+131
        lda #.bankbyte($eax)
        sta sreg
        lda #0
        sta sreg+1
        ldx #>($eax)
        ldy #$y
        lda #<($eax)
        $line
        pla
        sta sp+1
        pla
        sta sp
        lda #0
        tax
        rts
ASM
}

# Bytes and cycles of the program with a line, or nothing where it does not link.
measure() {
    write_program "$1" "$2" "$3" "$4"
    cl65 -t sim6502 -o "$folder/made" "$folder/made.s" > /dev/null 2>&1 || return 1
    local cycles
    cycles=$(sim65 -c "$folder/made" 2>/dev/null | tr -dc 0-9) || return 1
    echo "$(wc -c < "$folder/made") $cycles"
}

"$program" > "$folder/costs"
if ! command -v cl65 > /dev/null || ! command -v sim65 > /dev/null; then
    awk 'BEGIN { print "routine bytes cycles" } { print $1, $2, $3 }' "$folder/costs" | column -t
    exit
fi
{
    echo "routine bytes cycles cc65's: bytes cycles"
    while read -r name bytes cycles eax y tos; do
        theirs="- -"
        if with=$(measure "$eax" "$y" "$tos" ".import $name
        jsr $name") && without=$(measure "$eax" "$y" "$tos" ""); then
            read -r more slow <<< "$with"
            read -r less quick <<< "$without"
            theirs="$((more - less - 3)) $((slow - quick))"
        fi
        echo "$name $bytes $cycles : $theirs"
    done < "$folder/costs"
} | column -t
