#!/usr/bin/env bash
# Times `ioam run` along a line of 61 nodes with 1, 2 and 4 workers against a yardstick in C (long.c) that does the same, for
# several kinds of traces, outputs thrown away, five rounds in turn, the least time of each; and from a line of 2 nodes beside
# it how long one visit takes, planned and done. First it compares all that the two write of 1,000 packets:
#     bench/speed/long.sh [COUNT]
set -eu
. "$(dirname "${BASH_SOURCE[0]}")/timing.sh"
count=${1:-20000}
. "$here/line.sh"
begin gcc
files='null1 null2 report exports'

# What the two write in this folder is the same.
compare() {
    local name
    ./long readings report exports
    for name in $files; do mv "$name" "c.$name"; done
    "$ioam" run domain.toml readings 1 report exports >/dev/null
    for name in $files; do cmp "$name" "c.$name"; done
}

kinds | while read -r name kind capacity more; do
    for nodes in 2 61; do
        for folder in same "$name.$nodes"; do
            # shellcheck disable=SC2086
            python3 "$make/make_line.py" "$folder" "$([ $folder = same ] && echo 1000 || echo "$count")" "$nodes" "$kind" "$capacity" $more
            # shellcheck disable=SC2086
            (cd "$folder" && yardstick "$here/long.c" "$nodes" "$kind" "$capacity" $more)
        done
        (cd same && compare)
        rm -r same
        for null in $files; do ln -s /dev/null "$name.$nodes/$null"; done
    done
    for _ in 1 2 3 4 5; do
        for nodes in 2 61; do
            cd "$name.$nodes"
            timed yardstick ./long readings report exports
            for workers in 1 2 4; do timed "run-$workers" "$ioam" run domain.toml readings "$workers" report exports; done
            cd ..
        done
    done
    awk -v n="$name" -v c="$count" -v y="$(cd "$name.61" && base yardstick)" -v s="$(cd "$name.2" && base yardstick)" -v short="$(cd "$name.2" && base run-1)" \
        -v one="$(cd "$name.61" && base run-1)" -v two="$(cd "$name.61" && base run-2)" -v four="$(cd "$name.61" && base run-4)" \
        'BEGIN { a = (y - s) / c / 59 * 1e9; b = (one - short) / c / 59 * 1e9; y = y > 0 ? y : 0.01
            printf "%-12s long.c %5.2f s; 1 worker %5.2f s, %5.2f times that; 2 workers %5.2f s, %5.2f; 4 workers %5.2f s, %5.2f; 2 gain %.2f, 4 gain %.2f; ns a visit: long.c %3.0f, 1 worker %4.0f\n", n, y, one, one / y, two, two / y, four, four / y, one / two, one / four, a, b }'
done
