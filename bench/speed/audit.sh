#!/usr/bin/env bash
# Times `ioam audit` of COUNT packets (a million where none is given) against what a node of this program made of them, against a
# plain audit in C with the same report, which is compared octet for octet, and beside `filter` and `node` over the same packets;
# then of captures of which no packet is one of the other, and of one in which every other packet is gone. Three rounds in turn, the
# least time of each:
#     bench/speed/audit.sh [COUNT]
set -eu
. "$(dirname "${BASH_SOURCE[0]}")/timing.sh"
count=${1:-1000000}
begin gcc
build walk audit
python3 "$make/make_capture.py" in.pcap "$count"
one=$top/examples/one-node
"$ioam" node "$one/domain.toml" "$one/readings" three two-three in.pcap after.pcap report exports >/dev/null
python3 - <<'PY'
octets, at, found = open("after.pcap", "rb").read(), 24, 0
with open("half.pcap", "wb") as half:
    half.write(octets[:24])
    while at < len(octets):
        end = at + 16 + int.from_bytes(octets[at + 8:at + 12], "big")
        if found % 2 == 0:
            half.write(octets[at:end])
        at, found = end, found + 1
PY
cp in.pcap same.pcap

for _ in 1 2 3; do
    timed cat sh -c 'cat in.pcap after.pcap >out.cat'
    timed walk ./walk in.pcap out.walk
    timed filter "$ioam" filter in.pcap out.filter report.filter
    timed node "$ioam" node "$one/domain.toml" "$one/readings" three two-three in.pcap out.node report.node exports.node
    for name in after half same; do
        timed "C-$name" ./audit 3 32 in.pcap "$name.pcap" c.report 7 123
        timed "$name" "$ioam" audit "$one/domain.toml" three two-three in.pcap "$name.pcap" report
        cmp report c.report
    done
done
echo "both write the same reports"

echo "$(nproc) cores, $count packets, $(stat -c %s in.pcap) octets"
echo "            seconds   packets/s  to filter  to node  to C  memory MB"
for name in cat walk filter node C-after after C-half half C-same same; do
    sort -n "times.$name" | head -1 | awk -v n="$name" -v c="$count" -v f="$(base filter)" -v d="$(base node)" -v y="$(base "C-${name#C-}" 2>/dev/null || echo 0)" \
        '{ s = $1 > 0 ? $1 : 0.01; printf "%-10s %8.2f  %10d  %9.2f  %7.2f  %s  %9.1f\n", n, $1, c / s, s / (f > 0 ? f : 0.01), s / (d > 0 ? d : 0.01), (y > 0 ? sprintf("%4.2f", s / y) : "   -"), $2 / 1024 }'
done
