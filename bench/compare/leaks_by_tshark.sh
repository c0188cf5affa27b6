#!/bin/bash
# Compares the packets that `leaks` finds in the shipped captures with those in which tshark sees an IOAM option: tshark's
# ipv6.opt.type is 0x11 or 0x31 in a packet's own headers as in those that an ICMPv6 error quotes.
#     bench/compare/leaks_by_tshark.sh [CAPTURE..]
# Prints a line for each capture, and one for each packet that only one of them finds. Ends with 1 where such a packet isn't one of
# those that are explained here.
set -u
top=$(cd "$(dirname "$0")/../.." && pwd) || exit 2
command -v tshark >/dev/null || { echo "leaks_by_tshark.sh: needs tshark" >&2; exit 77; }
ioam=${IOAM:-$top/ioam}
work=$(mktemp -d) || exit 2
trap 'rm -rf "$work"' EXIT

# CAPTURE/PACKET: why one of them alone finds the option.
why() {
    case $1 in
        suite.pcap/180) echo "the option runs past its header, which \`leaks\` calls hidden chain; tshark shows the option's type all the same" ;;
        suite.pcap/182) echo "the frame is shorter than the IPv6 header says, which \`leaks\` calls unseen length; tshark reads what there is" ;;
        *) return 1 ;;
    esac
}

status=0
# (Those of examples/recipes have a cooked header and VLAN tags, which no command reads.)
if [ $# = 0 ]; then mapfile -t captures < <(find "$top/examples" -name "*.pcap*" ! -path "*/recipes/*" | sort) && set -- "${captures[@]}"; fi
for capture in "$@"; do
    name=$(basename "$capture")
    "$ioam" leaks "$capture" "$work/out" "$work/report" >"$work/said" 2>/dev/null || { echo "$name: $(cat "$work/said")"; status=1; continue; }
    awk '$2 == "carries" || $2 == "quotes" { print $1 }' "$work/report" | sort >"$work/ours"
    tshark -r "$capture" -Y 'ipv6.opt.type in {0x11,0x31}' -T fields -e frame.number 2>/dev/null | sort >"$work/theirs"
    echo "$name: $(wc -l <"$work/ours") by leaks, $(wc -l <"$work/theirs") by tshark"
    for packet in $(comm -23 "$work/ours" "$work/theirs"); do
        echo "  $packet by leaks alone: $(why "$name/$packet" || echo DIFFERS)"
        why "$name/$packet" >/dev/null || status=1
    done
    for packet in $(comm -13 "$work/ours" "$work/theirs"); do
        echo "  $packet by tshark alone: $(why "$name/$packet" || echo DIFFERS)"
        why "$name/$packet" >/dev/null || status=1
    done
    # OUT has exactly these packets.
    [ "$(tshark -r "$work/out" -T fields -e frame.number 2>/dev/null | wc -l)" = "$(wc -l <"$work/ours")" ] || { echo "  OUT has others: DIFFERS"; status=1; }
done
exit $status
