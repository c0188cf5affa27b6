#!/usr/bin/env bash
# Times `ioam filter`, `ioam paths` and `ioam show` against tcpdump, a plain filter in C, and cat, over one capture
# of COUNT packets (a million where none is given), three rounds in turn, the least time of each:
#     bench/speed/filter.sh [COUNT]
set -eu
. "$(dirname "${BASH_SOURCE[0]}")/timing.sh"
count=${1:-1000000}
begin tcpdump gcc
build walk
python3 "$make/make_capture.py" in.pcap "$count"

for _ in 1 2 3; do
    timed cat sh -c 'cat in.pcap >out.cat'
    timed walk ./walk in.pcap out.walk
    timed tcpdump tcpdump -r in.pcap -w out.tcpdump ip6
    timed filter "$ioam" filter in.pcap out.filter report.filter
    timed paths "$ioam" paths in.pcap report.paths
    timed show "$ioam" show in.pcap report.show
done
cmp out.walk out.filter && echo "walk and ioam filter keep the same packets"

echo "$(nproc) cores, $count packets, $(stat -c %s in.pcap) octets"
echo "command   seconds  packets/s  to cat  to walk  to tcpdump  memory MB"
for name in cat walk tcpdump filter paths show; do
    sort -n "times.$name" | head -1 | awk -v n="$name" -v c="$count" -v a="$(base cat)" -v w="$(base walk)" -v t="$(base tcpdump)" \
        '{ s = $1 > 0 ? $1 : 0.01; printf "%-9s %7.2f  %9d  %6.2f  %7.2f  %10.2f  %9.1f\n", n, $1, c / s, s / a, s / w, s / t, $2 / 1024 }'
done
