# Three network namespaces in a row, a sender, a router and a receiver, for linux.sh and errors.sh, which source this. It needs
# root, iproute2, tcpdump, python3 and a kernel from 5.15 on that was built with IOAM; without them it ends with 77. What it
# makes is taken down at the end.
here=$(cd "$(dirname "$0")" && pwd) || exit 2
# the program: that of the environment variable IOAM, of the repository, or of PATH
ioam=${IOAM:-$here/../../ioam}
[ -n "${IOAM:-}" ] || [ -f "$ioam" ] || ioam=ioam
cannot() { echo "$(basename "$0"): $1" >&2; exit 77; }
[ "$(id -u)" = 0 ] || cannot "needs root"
for tool in ip tcpdump python3 sysctl; do command -v "$tool" >/dev/null || cannot "needs $tool"; done
[ -e /proc/sys/net/ipv6/conf/lo/ioam6_enabled ] || cannot "this kernel has no IOAM (it needs 5.15 or later)"
ip ioam namespace show >/dev/null 2>&1 || cannot "this ip has no ioam (it needs iproute2 5.15 or later)"

sender=ioam-sender-$$ router=ioam-router-$$ receiver=ioam-receiver-$$
work=$(mktemp -d) || exit 2
captures=()
down() {
    if [ ${#captures[@]} -gt 0 ]; then kill "${captures[@]}" 2>/dev/null; fi
    for name in "$sender" "$router" "$receiver"; do ip netns del "$name" 2>/dev/null; done
    rm -rf "$work"
}
trap down EXIT
trap 'exit 2' INT TERM
folder=${1:-$work}
mkdir -p "$folder" || exit 2

in_router() { ip netns exec "$router" "$@"; }
mac() { ip netns exec "$1" cat "/sys/class/net/$2/address"; }

# build MTU: the ends say nothing of their own; the router's interfaces have the numbers of domain.toml, and the link to the
# receiver this MTU.
build() {
    for name in "$sender" "$router" "$receiver"; do ip netns add "$name" || return; done
    for name in "$sender" "$receiver"; do ip netns exec "$name" sysctl -qw net.ipv6.conf.all.disable_ipv6=1 net.ipv6.conf.default.disable_ipv6=1 || return; done
    ip -n "$router" link add in type veth peer name end netns "$sender" &&
        ip -n "$router" link add out mtu "$1" type veth peer name end netns "$receiver" &&
        ip -n "$sender" link set end up && ip -n "$receiver" link set end up || return
    in_router sysctl -qw net.ipv6.conf.all.forwarding=1 net.ipv6.conf.all.accept_dad=0 net.ipv6.conf.default.accept_dad=0 \
        net.ipv6.icmp.ratelimit=0 net.ipv6.ioam6_id=77 net.ipv6.ioam6_id_wide=77 || return
    for name in in:21:10 out:32:20; do
        IFS=: read -r link number net <<<"$name"
        ip -n "$router" link set "$link" up && ip -n "$router" address add "2001:db8:$net::2/64" dev "$link" nodad || return
        in_router sysctl -qw "net.ipv6.conf.$link.ioam6_enabled=1" "net.ipv6.conf.$link.ioam6_id=$number" "net.ipv6.conf.$link.ioam6_id_wide=$number" || return
    done
    ip -n "$router" neighbour add 2001:db8:10::1 lladdr "$(mac "$sender" end)" dev in nud permanent &&
        ip -n "$router" neighbour add 2001:db8:20::1 lladdr "$(mac "$receiver" end)" dev out nud permanent
}

# capture NAMESPACE FILE WORDS..: captures what crosses the end of a namespace, and waits until it does.
capture() {
    local namespace=$1 file=$2
    shift 2
    ip netns exec "$namespace" tcpdump -i end -Z root -U --immediate-mode -w "$file" "$@" 2>"$work/said" &
    captures+=($!)
    for _ in $(seq 100); do
        grep -q 'listening on' "$work/said" && return
        sleep 0.05
    done
    cannot "tcpdump doesn't start: $(cat "$work/said")"
}

# Ends the captures once what was sent has come through: when nothing was added to any of these files for a second.
captured() {
    local size=none before
    for _ in $(seq 30); do
        sleep 1
        before=$size size=$(wc -c "$@")
        [ "$size" != "$before" ] || break
    done
    kill -INT "${captures[@]}"
    wait "${captures[@]}"
    captures=()
}
