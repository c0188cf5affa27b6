#!/usr/bin/env bash
# Times `ioam ipfix`, `records`, `part`, `merge` and `parts` over COUNT export records (a million where none is given) over a fifth
# as many keys, against yardsticks in C that write the same files, which are compared octet for octet, `sort -m -u` of the same as
# lines, ipfixDump where it is there, and `collect` of the same records. Of the two parts that are merged each has five in eight of
# the records. Three rounds in turn, the least time of each:
#     bench/speed/exports.sh [COUNT]
set -eu
. "$(dirname "${BASH_SOURCE[0]}")/timing.sh"
count=${1:-1000000}
begin gcc
build messages merge_parts
make_halves "$count"
dump=$(command -v ipfixDump || true)

for _ in 1 2 3; do
    timed C-ipfix ./messages write exports c.written
    timed ipfix "$ioam" ipfix exports written
    cmp written c.written
    timed C-records ./messages read written c.records
    timed records "$ioam" records written records
    cmp records c.records
    cmp records exports
    [ -z "$dump" ] || timed ipfixDump "$dump" --in written --stats
    timed collect "$ioam" collect exports groups
    timed part "$ioam" part exports part
    timed collect-both "$ioam" collect both groups.both
    timed C-merge ./merge_parts one.part two.part c.part
    timed merge "$ioam" merge one.part two.part merged
    cmp merged c.part
    cmp merged part
    timed sort-merge env LC_ALL=C sort -m -u -o sorted one.lines two.lines
    timed parts "$ioam" parts merged report
done
echo "both write the same messages, records and parts; the merged part is that of all records"

# show NAME PEER..: a command beside its peers.
show() {
    local name=$1 peer ratios=
    shift
    for peer; do [ ! -e "times.$peer" ] || ratios="$ratios  $peer $(base "$peer")"; done
    sort -n "times.$name" | head -1 | awk -v n="$name" -v c="$count" -v r="$ratios" \
        '{ s = $1 > 0 ? $1 : 0.01; printf "%-9s %7.2f  %10d  %9.1f ", n, $1, c / s, $2 / 1024; m = split(r, p); for (i = 1; i < m; i += 2) printf "  %.2f times %s", s / (p[i + 1] > 0 ? p[i + 1] : 0.01), p[i]; print "" }'
}
echo "$(nproc) cores, $count records, $(stat -c %s exports) octets"
echo "          seconds   records/s  memory MB"
show ipfix C-ipfix ipfixDump
show records C-records ipfixDump
show part collect
show merge C-merge sort-merge collect-both
show parts collect
