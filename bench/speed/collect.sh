#!/usr/bin/env bash
# Times `ioam collect` of COUNT export records (a million where none is given) over a fifth as many keys, in random order, against
# `sort -u` of the same records as lines and a yardstick in C with the same report, which is compared octet for octet; and of COUNT
# records of one key, rising, falling and in random order. Three rounds in turn, the least time of each:
#     bench/speed/collect.sh [COUNT]
set -eu
. "$(dirname "${BASH_SOURCE[0]}")/timing.sh"
count=${1:-1000000}
begin gcc
build collect
python3 "$make/make_exports.py" "$count" $((count / 5))

for _ in 1 2 3; do
    timed sort env LC_ALL=C sort -u -o sorted lines
    for name in exports rising falling random; do
        timed "C-$name" ./collect "$name" c.report
        timed "$name" "$ioam" collect "$name" report
        cmp report c.report
    done
done
echo "both write the same reports"

echo "$(nproc) cores, $count records, $(stat -c %s exports) octets"
echo "            seconds   records/s  to sort -u   to C  memory MB"
for name in sort C-exports exports; do
    sort -n "times.$name" | head -1 | awk -v n="$name" -v c="$count" -v u="$(base sort)" -v y="$(base C-exports)" \
        '{ s = $1 > 0 ? $1 : 0.01; printf "%-10s %8.2f  %10d  %10.2f  %5.2f  %9.1f\n", n, $1, c / s, s / (u > 0 ? u : 0.01), s / (y > 0 ? y : 0.01), $2 / 1024 }'
done
echo "of one key"
for name in rising falling random; do
    sort -n "times.$name" | head -1 | awk -v n="$name" -v c="$count" -v y="$(base "C-$name")" \
        '{ s = $1 > 0 ? $1 : 0.01; printf "%-10s %8.2f  %10d  %10s  %5.2f  %9.1f\n", n, $1, c / s, "", s / (y > 0 ? y : 0.01), $2 / 1024 }'
done
