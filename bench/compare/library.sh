#!/usr/bin/env bash
# Compares the library with the program: bench/compare/library.sh [COUNT [SEED]]
# Builds the shared object, the C program of library.c and the example of examples/c from the archive of crates/ioam_c (or the one that
# LIBIOAM names), compares what both and Python say (library.py), and runs the C program under valgrind and with the sanitizers of gcc
# over the packets of the shipped captures and COUNT / 20 random ones.
set -eu
here=$(dirname "$(readlink -f "${BASH_SOURCE[0]}")")
top=$(dirname "$(dirname "$here")")
archive=${LIBIOAM:-$top/crates/ioam_c/out/libioam_c.a}
[ -f "$archive" ] || { echo "library.sh: there is no archive $archive (rt lib in crates/ioam_c makes it)" >&2; exit 125; }
for tool in gcc valgrind python3; do
    command -v $tool >/dev/null || { echo "library.sh: needs $tool" >&2; exit 125; }
done
room=$(mktemp -d)
trap 'rm -rf "$room"' EXIT
flags="-std=c11 -O2 -Wall -Wextra -Wpedantic -Werror -I$top/include"
# shellcheck disable=SC2086
{
    gcc $flags -o "$room/show" "$here/library.c" "$archive"
    gcc $flags -o "$room/traces" "$top/examples/c/traces.c" "$archive"
    gcc $flags -g -fsanitize=address,undefined -fno-sanitize-recover=all -o "$room/show-checked" "$here/library.c" "$archive"
}
gcc -shared -o "$room/libioam.so" -Wl,--whole-archive "$archive" -Wl,--no-whole-archive
export IOAM_LIBRARY=$room/libioam.so
LIBRARY_SHOW=$room/show python3 "$here/library.py" "$@"
echo '#!/bin/sh
exec valgrind -q --error-exitcode=99 '"$room/show" >"$room/show-valgrind"
chmod +x "$room/show-valgrind"
few=$((${1:-100000} / 20))
LIBRARY_SHOW=$room/show-valgrind python3 "$here/library.py" $few "${2:-1}"
LIBRARY_SHOW=$room/show-checked python3 "$here/library.py" $few "${2:-1}"
