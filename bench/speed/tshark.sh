#!/usr/bin/env bash
# Times the two ways to find packets with IOAM options in a capture of COUNT packets (two million if none is given): `ioam leaks`,
# and tshark with a display filter. The least time of three rounds of each; both find the same number of packets.
#     bench/speed/tshark.sh [COUNT]
set -eu
. "$(dirname "${BASH_SOURCE[0]}")/timing.sh"
count=${1:-2000000}
begin tshark
python3 "$make/make_capture.py" in.pcap "$count"

for _ in 1 2 3; do
    timed leaks "$ioam" leaks in.pcap out.leaks report
    timed tshark tshark -r in.pcap -Y 'ipv6.opt.type in {0x11,0x31}' -w out.tshark
done
found=$(tail -n 1 report | sed 's/.* carries \([0-9]*\) .*/\1/')
[ "$(tshark -r out.tshark | wc -l)" = "$found" ] || echo "tshark finds others than the $found of leaks"

echo "$(nproc) cores, $count packets, $(stat -c %s in.pcap) octets, of which $found packets carry IOAM"
for name in leaks tshark; do
    sort -n "times.$name" | head -1 | awk -v n="$name" '{ printf "%-9s %7.2f s  %9.1f MB\n", n, $1, $2 / 1024 }'
done
