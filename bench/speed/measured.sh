#!/usr/bin/env bash
# Times `ioam run` of measured packets, with 1, 2 and 4 workers, against a yardstick in C that does the same over the same
# domain, and compares all that the two write: COUNT packets (a million where none is given), three rounds in turn, the least
# time of each, once with outputs in files and once with outputs that are thrown away:
#     bench/speed/measured.sh [COUNT]
set -eu
. "$(dirname "${BASH_SOURCE[0]}")/timing.sh"
count=${1:-1000000}
begin gcc
build measured
python3 "$make/make_measured.py" . "$count"
files='west-out.pcap east-out.pcap ab.pcap cd.pcap report exports'
throw_away

for _ in 1 2 3; do
    timed cat sh -c 'cat west.pcap >out.cat'
    timed measured ./measured readings report exports
    for name in $files; do mv "$name" "c.$name"; done
    for workers in 1 2 4; do timed "run-$workers" "$ioam" run domain.toml readings "$workers" report exports; done
    for name in $files; do cmp "$name" "c.$name"; done
    cd null
    timed measured ../measured readings report exports
    for workers in 1 2 4; do timed "run-$workers" "$ioam" run domain.toml readings "$workers" report exports; done
    cd ..
done
echo "both write the same six files"

show() {
    for name in "$@"; do
        sort -n "times.$name" | head -1 | awk -v n="$name" -v c="$count" -v m="$(base measured)" \
            '{ s = $1 > 0 ? $1 : 0.01; printf "%-9s %7.2f  %9d  %11.2f  %9.1f\n", n, $1, c / s, s / m, $2 / 1024 }'
    done
}
echo "$(nproc) cores, $count packets, $(stat -c %s west.pcap) octets"
echo "to files:  seconds  packets/s  to measured  memory MB"
show cat measured run-1 run-2 run-4
echo "thrown away"
cd null
show measured run-1 run-2 run-4
