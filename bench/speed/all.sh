#!/usr/bin/env bash
# One table of every command against its peers, in one series: COUNT packets or records (300,000 where none is given), five rounds
# in turn, the least time of each; the peers are plain programs in C that do the same work (walk.c, audit.c, measured.c, long.c,
# collect.c, messages.c, merge_parts.c) and the field's tools (tcpdump, editcap, sort):
#     bench/speed/all.sh [COUNT]
set -eu
. "$(dirname "${BASH_SOURCE[0]}")/timing.sh"
count=${1:-300000}
begin tcpdump gcc editcap
build walk audit measured collect messages merge_parts
gcc -O2 -DNODES=61 -DTRACE=0x800000 -DCAPACITY=61 -DDIRECT=0 -DWORDS=-1 -o long "$here/long.c"
python3 "$make/make_capture.py" in.pcap "$count"
"$ioam" save in.pcap in.pcapng >/dev/null
python3 "$make/make_measured.py" . "$count"
make_halves "$count"
one=$top/examples/one-node
"$ioam" node "$one/domain.toml" "$one/readings" three two-three in.pcap after.pcap report.after exports.after >/dev/null
python3 "$make/make_line.py" line $((count / 10)) 61 0x800000 61
throw_away
for name in null1 null2 report exports; do ln -s /dev/null "line/$name"; done

# within FOLDER COMMAND..: a command in that folder.
within() { (cd "$1" && shift && "$@"); }

for _ in 1 2 3 4 5; do
    timed cat sh -c 'cat in.pcap >out.cat'
    timed walk ./walk in.pcap out.walk
    timed tcpdump tcpdump -r in.pcap -w out.tcpdump ip6
    timed editcap editcap -F pcapng in.pcap out.editcap
    timed filter "$ioam" filter in.pcap out.filter report.filter
    timed filter-ng "$ioam" filter in.pcapng out.filter-ng report.filter-ng
    timed paths "$ioam" paths in.pcap report.paths
    timed show "$ioam" show in.pcap report.show
    timed save "$ioam" save in.pcap out.save
    timed node "$ioam" node "$one/domain.toml" "$one/readings" three two-three in.pcap out.node report.node exports.node
    timed audit.c ./audit 3 32 in.pcap after.pcap c.audit 7 123
    timed audit "$ioam" audit "$one/domain.toml" three two-three in.pcap after.pcap report.audit
    timed measured ./measured readings report exports.c
    timed run "$ioam" run domain.toml readings 1 report exports.run
    timed sort env LC_ALL=C sort -u -o sorted lines
    timed sort-one env LC_ALL=C sort --parallel=1 -u -o sorted lines
    timed collect.c ./collect exports c.report
    timed collect "$ioam" collect exports report.collect
    timed messages-write ./messages write exports c.messages
    timed ipfix "$ioam" ipfix exports messages.ioam
    timed messages-read ./messages read c.messages c.records
    timed records "$ioam" records c.messages records.ioam
    timed part "$ioam" part exports whole.part
    timed collect-both "$ioam" collect both report.both
    timed merge_parts ./merge_parts one.part two.part c.part
    timed merge "$ioam" merge one.part two.part merged.part
    timed sort-merge env LC_ALL=C sort -m -u -o sorted one.lines two.lines
    timed parts "$ioam" parts whole.part report.parts
    timed bulk "$ioam" bulk 1 "$count" 1 report.bulk
    within null timed measured ../measured readings report exports
    for workers in 1 2 4; do within null timed "run-$workers" "$ioam" run domain.toml readings "$workers" report exports; done
    within line timed long ../long readings report exports
    for workers in 1 2 4; do within line timed "run-$workers" "$ioam" run domain.toml readings "$workers" report exports; done
done

# row WHAT FOLDER NAME PEER: the least seconds of a command and of its peer, their ratio, the command's memory.
row() {
    within "$2" sh -c "sort -n times.$3 | head -1" | awk -v w="$1" -v p="$4" -v b="$(within "$2" base "$4")" \
        '{ s = $1 > 0 ? $1 : 0.01; b = b > 0 ? b : 0.01; printf "| %s | %.2f | %s %.2f | %.2f | %.1f |\n", w, s, p, b, s / b, $2 / 1024 }'
}

echo "$(nproc) cores, $count packets of $(stat -c %s in.pcap) octets, $count export records, $((count / 10)) packets along 61 nodes"
echo '| command | seconds | peer, seconds | ratio | memory, MB |'
echo '|---|---|---|---|---|'
row '`filter`' . filter cat
row '`filter`' . filter walk
row '`filter`' . filter tcpdump
row '`filter` of pcapng' . filter-ng filter
row '`paths`' . paths walk
row '`show`' . show walk
row '`save`' . save editcap
row '`node`' . node walk
row '`audit`' . audit filter
row '`audit`' . audit node
row '`audit`' . audit audit.c
row '`run`, measured, to files' . run measured
row '`run`, measured, thrown away' null run-1 measured
row 'the same, 2 workers' null run-2 measured
row 'the same, 4 workers' null run-4 measured
row '`run` along 61 nodes' line run-1 long
row 'the same, 2 workers' line run-2 long
row 'the same, 4 workers' line run-4 long
row '`collect`' . collect sort
row '`collect`' . collect sort-one
row '`collect`' . collect collect.c
row '`ipfix`' . ipfix messages-write
row '`records`' . records messages-read
row '`part`' . part collect
row '`merge`' . merge merge_parts
row '`merge`' . merge sort-merge
row '`merge`' . merge collect-both
row '`parts`' . parts collect
row '`bulk`' . bulk cat
