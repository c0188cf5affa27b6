#!/usr/bin/env bash
# Counts the instructions of the library's calls and of the same by hand (library.c), by callgrind:
#     bench/speed/library.sh [COUNT]
# COUNT calls (20,000) are counted beside a tenth of them; what a start costs falls out of the difference. The archive is that of
# crates/ioam_c, or the one that LIBIOAM names.
set -eu
here=$(dirname "$(readlink -f "${BASH_SOURCE[0]}")")
top=$(dirname "$(dirname "$here")")
archive=${LIBIOAM:-$top/crates/ioam_c/out/libioam_c.a}
[ -f "$archive" ] || { echo "library.sh: there is no archive $archive (rt lib in crates/ioam_c makes it)" >&2; exit 125; }
room=$(mktemp -d)
trap 'rm -rf "$room"' EXIT
gcc -std=c11 -O2 -Wall -Wextra -I"$top/include" -o "$room/library" "$here/library.c" "$archive"
count=${1:-20000}

# spent WORD..: the instructions of a run.
spent() {
    valgrind --tool=callgrind --callgrind-out-file=/dev/null "$room/library" "$@" 2>&1 >/dev/null | awk '/ Collected : / { print $4 }'
}
# each HOW WHAT TYPE: those of one call.
each() { echo $((($(spent "$1" "$2" "$count" "$3") - $(spent "$1" "$2" $((count / 10)) "$3")) / (count - count / 10))); }

echo '| call | trace type | instructions | by hand | times that |'
echo '|---|---|---|---|---|'
for type in 800000 c00000 f80000 fff000; do
    for what in fill elements; do
        [ "$("$room/library" lib $what 10 $type)" = "$("$room/library" hand $what 10 $type)" ] || { echo "library.sh: the two differ" >&2; exit 1; }
        lib=$(each lib $what $type) hand=$(each hand $what $type)
        name='`ioam_fill`'
        [ $what = fill ] || name='`ioam_trace_element`, four elements and the end'
        echo "| $name | $type | $lib | $hand | $(awk -v a="$lib" -v b="$hand" 'BEGIN { printf "%.2f", a / b }') |"
    done
done
