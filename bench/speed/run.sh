#!/usr/bin/env bash
# Times `ioam run` through five nodes in a row against `ioam filter` and cat, over one capture of COUNT packets (a
# million where none is given), three rounds in turn, the least time of each:
#     bench/speed/run.sh [COUNT]
set -eu
. "$(dirname "${BASH_SOURCE[0]}")/timing.sh"
count=${1:-1000000}
begin
python3 "$make/make_capture.py" in.pcap "$count"

# Five nodes in a row: each routes the packets' target to the next one, the last to a port.
{
    echo 'packets = 16777216'
    for i in 1 2 3 4 5; do
        printf '[[node]]\nname = "n%d"\nid = %d\naddress = "2001:db8::%d"\n' "$i" "$i" "$i"
    done
    for i in 1 2 3 4; do
        printf '[[link]]\nname = "l%d"\nfrom = "n%d"\nto = "n%d"\nout_id = 2\nin_id = 1\ndelay = 1000\nmtu = 1500\n' "$i" "$i" $((i + 1))
    done
    printf '[[port]]\nname = "west"\nnode = "n1"\nid = 1\nin = "in.pcap"\nout = "west.out"\n'
    printf '[[port]]\nname = "east"\nnode = "n5"\nid = 2\nout = "east.out"\n'
    for i in 1 2 3 4; do
        printf '[[route]]\nnode = "n%d"\nprefix = "2001:db8:2::/48"\nlink = "l%d"\n' "$i" "$i"
    done
    printf '[[route]]\nnode = "n5"\nprefix = "2001:db8:2::/48"\nport = "east"\n'
} >domain.toml
: >readings

for _ in 1 2 3; do
    timed cat sh -c 'cat in.pcap >out.cat'
    timed filter "$ioam" filter in.pcap out.filter report.filter
    timed run "$ioam" run domain.toml readings 1 report.run exports
done

echo "$(nproc) cores, $count packets, $(stat -c %s in.pcap) octets; run: $(tail -6 report.run | head -1)"
echo "command   seconds  packets/s  to cat  to filter  memory MB"
for name in cat filter run; do
    sort -n "times.$name" | head -1 | awk -v n="$name" -v c="$count" -v a="$(base cat)" -v f="$(base filter)" \
        '{ s = $1 > 0 ? $1 : 0.01; printf "%-9s %7.2f  %9d  %6.2f  %9.2f  %9.1f\n", n, $1, c / s, s / a, s / f, $2 / 1024 }'
done
