#!/usr/bin/env bash
# Runs each command over the shipped examples once for each of its takings of memory, which then fails: by itself, and with all
# behind it. Each run is to print `no memory`, end with status 11, and leave in each output a front of what it holds when nothing
# fails; where only the printed line finds no memory, or the slots in front of a collector's map, it is to end with status 0 and whole outputs. A line for each command with the number of its takings; ends with status 1 where one differs.
#     bench/compare/fail-alloc.sh
set -eu
. "$(dirname "${BASH_SOURCE[0]}")/../room.sh"
begin gcc
gcc -O2 -shared -fPIC -o fail_alloc.so "$here/fail_alloc.c"
cp -r "$top/examples" .
wrong=0

# Whether a file is a front of another; one that isn't there is.
is_front() { [ ! -e "$1" ] || cmp -s -n "$(stat -c %s "$1")" "$1" "$2"; }

# A run in which a taking of this number fails, by itself or with all behind it: whether it is answered as it should be. Its status
# stays in `status`.
passes() {
    local call=$1 lasting=$2 name
    shift 2
    status=0
    rm -f "${outputs[@]}"
    env FAIL_ALLOC="$call" ${lasting:+FAIL_LASTING=1} LD_PRELOAD=./fail_alloc.so "$ioam" "$@" >said 2>&1 </dev/null || status=$?
    # where main finds no memory for its line it prints none, and the status says the answer
    if [ "$status" = 0 ] && { [ ! -s said ] || [ "$(cat said)" = done ]; }; then
        for name in "${outputs[@]}"; do cmp -s "$name" "whole.$name" || { echo "  $1, taking $call ${lasting:-alone}: done, $name"; return 1; }; done
        return 0
    fi
    if [ "$status" != 11 ] || { [ -s said ] && [ "$(cat said)" != 'no memory' ]; }; then
        echo "  $1, taking $call ${lasting:-alone}: status $status, $(head -n 1 said)"
        return 1
    fi
    for name in "${outputs[@]}"; do
        is_front "$name" "whole.$name" || { echo "  $1, taking $call ${lasting:-alone}: $name"; return 1; }
    done
}

# A command, whose outputs are set before.
try() {
    local call=0 bad=0 name
    "$ioam" "$@" >/dev/null
    for name in "${outputs[@]}"; do mv "$name" "whole.$name"; done
    : >said
    until [ "$(cat said)" = done ]; do
        call=$((call + 1))
        passes "$call" '' "$@" || bad=$((bad + 1))
        passes "$call" lasting "$@" || bad=$((bad + 1))
    done
    wrong=$((wrong + bad))
    printf '%-8s %5d takings of memory, %d answered otherwise\n' "$1" $((call - 1)) "$bad"
}

real=examples/linux-ioam.pcap three=examples/three one=examples/one-node
outputs=(kept.pcap report) && try filter examples/reasons.pcap kept.pcap report
outputs=(leaking.pcap report) && try leaks examples/reasons.pcap leaking.pcap report
outputs=(report) && try paths "$real" report
outputs=(report) && try delays posix "$real" report
outputs=(report) && try show "$real" report
outputs=(saved.pcapng) && try save "$real" saved.pcapng
outputs=(out.pcap report exports) && try node "$one/domain.toml" "$one/readings" three two-three "$real" out.pcap report exports
cp "$three/west.pcap" .
mapfile -t outputs < <(grep -oE '(out|tap) = "[^"]*"' "$three/domain.toml" | cut -d'"' -f2)
outputs+=(report exports) && try run "$three/domain.toml" "$three/readings" 2 report exports
cp whole.exports exports.all
outputs=(groups) && try collect exports.all groups
outputs=(messages) && try ipfix exports.all messages
cp whole.messages messages.all
outputs=(exports) && try records messages.all exports
head -c 136 exports.all >exports.some # four of its records
for name in all some; do "$ioam" part "exports.$name" "$name.part" >/dev/null; done
outputs=(part) && try part exports.all part
outputs=(part) && try merge some.part all.part part
outputs=(groups) && try parts all.part groups
cp whole.out.pcap after.pcap
outputs=(report) && try audit "$one/domain.toml" three two-three "$real" after.pcap report
outputs=(report) && try bulk 1 300 2 report
[ "$wrong" = 0 ]
