#!/usr/bin/env bash
# Captures of the form pcapng that other tools wrote or read, and how fast `filter` is over them:
#     bench/speed/pcapng.sh [COUNT]
# Says for each check ok or DIFFERS, and ends with status 1 where one differs: each command answers over the shipped
# captures as over the same records in the classic form; what `save` wrote tshark and capinfos read to the nanosecond. Then
# times `filter` of COUNT packets (a million where none is given) in either form, three rounds in turn, the least of each.
set -eu
. "$(dirname "${BASH_SOURCE[0]}")/timing.sh"
count=${1:-1000000}
begin tshark editcap mergecap capinfos
cp -r "$top/examples" .
wrong=0

# check NAME COMMAND..: the command says whether it is so.
check() {
    local name=$1
    shift
    if "$@" >/dev/null 2>&1; then echo "ok       $name"; else
        echo "DIFFERS  $name"
        wrong=1
    fi
}

# The records of a capture, as tshark has them: time, lengths and octets.
records() { tshark -r "$1" -T fields -e frame.time_epoch -e frame.cap_len -e frame.len 2>/dev/null; }

# alike NAME ONE OTHER: filter, paths, show and node write the same of both.
alike() {
    local name=$1 one=$2 other=$3 command
    "$ioam" filter "$one" one.out one.txt >/dev/null && "$ioam" filter "$other" other.out other.txt >/dev/null
    check "$name: OUT of filter" cmp one.out other.out
    check "$name: REPORT of filter" cmp one.txt other.txt
    for command in paths show; do
        "$ioam" $command "$one" one.txt >/dev/null && "$ioam" $command "$other" other.txt >/dev/null
        check "$name: REPORT of $command" cmp one.txt other.txt
    done
    "$ioam" node examples/one-node/domain.toml examples/one-node/readings three two-three "$one" one.out one.txt one.exports >/dev/null
    "$ioam" node examples/one-node/domain.toml examples/one-node/readings three two-three "$other" other.out other.txt other.exports >/dev/null
    check "$name: OUT of node" cmp one.out other.out
    check "$name: REPORT of node" cmp one.txt other.txt
    check "$name: EXPORTS of node" cmp one.exports other.exports
}

# saved NAME CAPTURE: what `save` makes of it has the records that tshark finds in it.
saved() {
    "$ioam" save "$2" saved.pcapng >/dev/null
    records "$2" >one.txt && records saved.pcapng >other.txt
    check "$1: tshark reads what save wrote" cmp one.txt other.txt
    check "$1: capinfos reads what save wrote" sh -c 'capinfos saved.pcapng | grep -q "Time precision = nanoseconds (9)"'
    "$ioam" save saved.pcapng again.pcapng >/dev/null
    check "$1: save of what save wrote" cmp saved.pcapng again.pcapng
}

# A capture of a live interface, with a comment, a block of names and one of statistics.
editcap -F nsecpcap examples/live.pcapng live.pcap
alike "live.pcapng" examples/live.pcapng live.pcap
saved "live.pcapng" examples/live.pcapng

# Two interfaces, of which one has Ethernet headers: the same records without them.
editcap -F nsecpcap -r examples/linux-ioam.pcap raw.pcap 1-6
mergecap -F nsecpcap -w twice.pcap raw.pcap raw.pcap
alike "two-links.pcapng" examples/two-links.pcapng twice.pcap
saved "two-links.pcapng" examples/two-links.pcapng
saved "linux-ioam.pcap" examples/linux-ioam.pcap

# ran FOLDER DOMAIN: what a run of this domain writes, in a folder.
ran() {
    "$ioam" run "$2" examples/three/readings 2 report exports >/dev/null
    mkdir "$1" && mv report exports west-out.pcap east-out.pcap bc.pcap "$1"
}

"$ioam" save examples/three/west.pcap west.pcapng >/dev/null
sed 's,examples/three/west.pcap,west.pcapng,' examples/three/domain.toml >domain.toml
ran shipped examples/three/domain.toml
ran saved domain.toml
check "run over a saved capture" diff -r shipped saved

python3 "$make/make_capture.py" in.pcap "$count"
"$ioam" save in.pcap in.pcapng >/dev/null
for _ in 1 2 3; do
    timed classic "$ioam" filter in.pcap out.classic report.classic
    timed pcapng "$ioam" filter in.pcapng out.pcapng report.pcapng
    timed save "$ioam" save in.pcap out.save
done
check "filter of $count packets" cmp out.classic out.pcapng
echo "$count packets, seconds: filter of the classic form $(base classic), of pcapng $(base pcapng); save $(base save)"
awk -v c="$(base classic)" -v p="$(base pcapng)" 'BEGIN { printf "pcapng to classic %.2f\n", p / c }'
exit $wrong
