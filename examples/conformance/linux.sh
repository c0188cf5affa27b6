#!/bin/bash
# Plays the suite against the running Linux kernel as the router, between two network namespaces, and judges its answers:
#     linux.sh [FOLDER]
# FOLDER gets before.pcap and after.pcap, what came to the router and what it sent on. Everything else is taken down afterwards.
# lab.sh says what it needs; it ends with 77 where that isn't there, and else as judge.sh does. NAMESPACES in the environment
# names others than 0, 7 and 123.
set -u
. "$(dirname "$0")/lab.sh"

namespaces() {
    for namespace in ${NAMESPACES:-0 7 123}; do ip -n "$router" ioam namespace add "$namespace" data 0xc0ffee01 wide 0xc0ffee02c0ffee03 || return; done
    ip -n "$router" ioam schema add 5 "conform." && ip -n "$router" ioam namespace set 123 schema 5
}

build 1500 && namespaces || cannot "the network namespaces couldn't be set up"
capture "$sender" "$work/before.pcap" --time-stamp-precision=nano ip6
capture "$receiver" "$work/after.pcap" --time-stamp-precision=nano ip6
ip netns exec "$sender" python3 "$here/send.py" end "$(mac "$router" in)" "$here/suite.pcap" || cannot "the packets couldn't be sent"
captured "$work/before.pcap" "$work/after.pcap"
if [ "$folder" != "$work" ]; then cp "$work/before.pcap" "$work/after.pcap" "$folder"; fi
echo "Linux $(uname -r), namespaces ${NAMESPACES:-0 7 123}"
IOAM=$ioam "$here/judge.sh" "$folder/before.pcap" "$folder/after.pcap"
