#!/usr/bin/env bash
# Tries the kit's planted wrong bodies (`rt plant`) over the crates that are named, or over all that hold
# contracts; says of each what met its contract, and then how many bodies of each kind there were:
#     bench/prove/planted.sh [NAME..]
# The kit tries forty bodies in one check, which it cuts off after four minutes; most of these crates are too large
# for that, so that their bodies count as not run. Here eight are tried at a time, in at most a quarter of an hour. Where
# `rt check` has proved a crate it takes one to ten minutes, all of them some three hours on one core. A plant writes
# the out/ of its crate, and those below it wait, so several crates at a time want a clone each. The status is 1
# where a crate was not tried to its end.
set -u
top=$(cd "$(dirname "${BASH_SOURCE[0]}")/../.." && pwd)
if [ $# = 0 ]; then
    mapfile -t names < <(awk -F'[: ]' '/^ioam_/ { print $1 }' "$top/crates.txt" | grep -vE '^ioam_test_')
    set -- "${names[@]}"
fi

kit=$(dirname "$(dirname "$(readlink -f "$(command -v rt)")")")
tried=$(mktemp) || exit 1
said=$(mktemp) || exit 1
trap 'rm -f "$tried" "$said"' EXIT
sed -e "s#^KIT = .*#KIT = \"$kit\"#" -e 's/^BATCH, SECONDS = .*/BATCH, SECONDS = 8, 900/' "$kit/bin/rt-plant" >"$tried"
grep -q '^BATCH, SECONDS = 8, 900' "$tried" || {
    echo "planted: this kit's rt plant has no such limits" >&2
    exit 1
}

status=0
for name in "$@"; do
    (cd "$top/crates/$name" && python3 "$tried" --minutes 60 --jobs 1) >"$said" 2>/dev/null
    grep -E '^(proves|no-ensures|untested|plants) ' "$said"
    grep -q '^plants .* not-run=0$' "$said" || {
        echo "planted: $name was not tried to its end" >&2
        status=1
    }
done
exit "$status"
