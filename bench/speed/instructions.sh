#!/usr/bin/env bash
# Counts the instructions of every command, and of the program in C that does the same by hand, or is nearest to it, by callgrind:
# the same in every run on one machine, so that a change can be held against it. Each is counted over a tenth of the packets and
# records and over all of them; what a start costs, whatever comes, falls out of the difference. A table, in some minutes:
#     bench/speed/instructions.sh [PACKETS [RECORDS]]
# PACKETS (20,000) are also sent through the domain of make_measured.py, a tenth of them along 61 nodes, and RECORDS (200,000) stand
# over a fifth as many keys, five in eight of them in each of the parts that are merged.
set -eu
. "$(dirname "${BASH_SOURCE[0]}")/timing.sh"
packets=${1:-20000} records=${2:-200000}
begin gcc valgrind
build walk texts save node audit measured collect messages merge_parts
gcc -O2 -DNODES=61 -DTRACE=0x800000 -DCAPACITY=61 -DDIRECT=0 -DWORDS=-1 -o long "$here/long.c"
one=$top/examples/one-node

# inputs PACKETS RECORDS: what the commands read, in this folder.
inputs() {
    python3 "$make/make_capture.py" in.pcap "$1"
    python3 "$make/make_measured.py" . "$1"
    python3 "$make/make_line.py" line $(($1 / 10)) 61 0x800000 61
    make_halves "$2"
    "$ioam" save in.pcap in.pcapng >/dev/null
    "$ioam" node "$one/domain.toml" "$one/readings" three two-three in.pcap after.pcap out out.exports >/dev/null
    "$ioam" ipfix exports messages >/dev/null
    "$ioam" merge one.part two.part both.part >/dev/null
}

# counted NAME COMMAND..: the instructions of a command, into the file of its name.
counted() {
    local name=$1
    shift
    valgrind --tool=callgrind --callgrind-out-file=/dev/null "$@" >/dev/null 2>said || { tail -n 3 said >&2; exit 1; }
    awk '/ Collected : / { print $4 }' said >"count.$name"
}

# Every command and its peer, in this folder.
count_all() {
    counted walk ../walk in.pcap out
    counted filter "$ioam" filter in.pcap clean.pcap clean.report
    counted filter-clean "$ioam" filter clean.pcap out out.report
    counted leaks-clean "$ioam" leaks clean.pcap out out.report
    counted filter-ng "$ioam" filter in.pcapng out out.report
    counted leaks "$ioam" leaks in.pcap out out.report
    counted paths.c ../texts paths in.pcap by-hand
    counted paths "$ioam" paths in.pcap out
    cmp by-hand out
    counted delays "$ioam" delays ptp in.pcap out
    counted show.c ../texts show in.pcap by-hand
    counted show "$ioam" show in.pcap out
    cmp by-hand out
    counted save.c ../save in.pcap by-hand
    counted save "$ioam" save in.pcap out
    cmp by-hand out
    counted node.c ../node "$one/readings" in.pcap by-hand by-hand.report
    counted node "$ioam" node "$one/domain.toml" "$one/readings" three two-three in.pcap out out.report out.exports
    cmp by-hand out
    cmp by-hand.report out.report
    counted audit.c ../audit 3 32 in.pcap after.pcap out 7 123
    counted audit "$ioam" audit "$one/domain.toml" three two-three in.pcap after.pcap out
    counted measured ../measured readings out out.exports
    counted run "$ioam" run domain.toml readings 1 out out.exports
    (cd line && counted long ../../long readings out out.exports && counted run "$ioam" run domain.toml readings 1 out out.exports)
    mv line/count.long count.long
    mv line/count.run count.run-line
    counted bulk "$ioam" bulk 1 "$1" 1 out
    counted collect.c ../collect exports out
    counted collect "$ioam" collect exports out
    counted ipfix.c ../messages write exports out
    counted ipfix "$ioam" ipfix exports out
    counted records.c ../messages read messages out
    counted records "$ioam" records messages out
    counted part "$ioam" part exports out
    counted merge.c ../merge_parts one.part two.part out
    counted merge "$ioam" merge one.part two.part out
    counted parts "$ioam" parts both.part out
}

for folder in small large; do
    mkdir $folder
    if [ $folder = small ]; then sizes="$((packets / 10)) $((records / 10))"; else sizes="$packets $records"; fi
    # shellcheck disable=SC2086
    (cd $folder && inputs $sizes && count_all $sizes)
done

# grown NAME: by how many instructions the larger input takes more; held PART..: by how many records these parts hold more.
grown() { echo $(($(cat "large/count.$1") - $(cat "small/count.$1"))); }
held_in() { local part; for part in "${@:2}"; do od -An -j8 -N4 -tu4 --endian=big "$1/$part.part"; done | awk '{ sum += $1 } END { print sum }'; }
held() { echo $(($(held_in large "$@") - $(held_in small "$@"))); }

# row WHAT NAME UNIT UNITS [PEER BY]: the instructions of each unit that the larger input has more, those of its peer, BY this program,
# and the ratio.
row() {
    local by_hand='| |'
    [ $# = 4 ] || by_hand=$(awk -v n="$(grown "$2")" -v p="$(grown "$5")" -v u="$4" -v by="$6" 'BEGIN { printf "%s | %d | %.2f", by, p / u, n / p }')
    echo "| $1 | $(($(grown "$2") / $4)) | $3 | $by_hand |"
}
# clean FOLDER: how many packets have nothing that `filter` drops.
clean() { sed -n 's/^packets .* kept \([0-9]*\) .*/\1/p' "$1/clean.report"; }
more_clean=$(($(clean large) - $(clean small)))
more=$((packets - packets / 10)) more_records=$((records - records / 10))
echo '| command | instructions | of | peer | its instructions | times that |'
echo '|---|---|---|---|---|---|'
row '`filter`' filter 'a packet' $more walk walk.c
row '`filter` of pcapng' filter-ng 'a packet' $more filter '`filter`'
row '`leaks`' leaks 'a packet' $more filter '`filter`'
row '`leaks` of clean packets' leaks-clean 'a packet' $more_clean filter-clean '`filter`'
row '`paths`' paths 'a packet' $more paths.c texts.c
row '`delays`' delays 'a packet' $more paths '`paths`'
row '`show`' show 'a packet' $more show.c texts.c
row '`save`' save 'a packet' $more save.c save.c
row '`node`' node 'a packet' $more node.c node.c
row '`audit`' audit 'a pair of packets' $more audit.c audit.c
row '`run`, measured' run 'a packet' $more measured measured.c
row '`run` along 61 nodes' run-line 'a packet' $((more / 10)) long long.c
row '`bulk`' bulk 'a packet' $more
row '`collect`' collect 'a record' $more_records collect.c collect.c
row '`ipfix`' ipfix 'a record' $more_records ipfix.c messages.c
row '`records`' records 'a record' $more_records records.c messages.c
row '`part`' part 'a record' $more_records collect.c collect.c
row '`merge`' merge 'a record of either' "$(held one two)" merge.c merge_parts.c
row '`parts`' parts 'a record' "$(held both)"
