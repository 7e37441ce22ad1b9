# shellcheck shell=sh disable=SC2154,SC2034 # top is the launcher's, and it reads not_in_lib
# Part of the launcher, read by it where --lib stands among the words of go, build or text: takes --lib out, and puts
# the folder of lib/'s headers and the files of lib/ that the sources need before `--`, or at the end.
# The headers that neither a folder nor lib/ nor the compiler has are left in not_in_lib.

# Is this word an option whose value is the next one?
takes_value() {
    case $1 in -D | -I | -o | -x | -t | --cpu) return 0 ;; esac
    return 1
}

# What choose.awk says of the files and folders that the words name.
choose() {
    shift
    sources=
    folders=
    strict=0
    option=
    for word; do
        case $option$word in
        --) break ;;
        -I?*) folders=$folders${word#-I}$line_end ;;
        -D__STRICT_ANSI__*) strict=1 ;;
        -*) ;;
        *) sources=$sources$word$line_end ;;
        esac
        if [ -z "$option" ] && takes_value "$word"; then option=$word; else option=; fi
    done
    awk -v lib="$top/lib" -v sources="$sources" -v folders="$folders" -v strict="$strict" \
        -f "$top/launcher/choose.awk"
}

line_end='
'
found=$(choose "$@")
not_in_lib=$(printf '%s\n' "$found" | sed -n 's/^missing //p')
found=$(printf '%s\n' "$found" | sed -n 's/^file //p')

old_ifs=$IFS
IFS=$line_end
set -f
left=$#
option=
ended=
while [ "$left" -gt 0 ]; do
    word=$1
    shift
    left=$((left - 1))
    if [ -z "$ended$option" ]; then
        [ "$word" != --lib ] || continue
        # shellcheck disable=SC2086 # one word a line
        [ "$word" != -- ] || { ended=1 && set -- "$@" -I "$top/lib/include" $found; }
    fi
    set -- "$@" "$word"
    if [ -z "$option" ] && takes_value "$word"; then option=$word; else option=; fi
done
# shellcheck disable=SC2086
[ -n "$ended$option" ] || set -- "$@" -I "$top/lib/include" $found
set +f
IFS=$old_ifs
