#!/bin/bash
# Makes the running Linux kernel answer three packets that carry a trace by ICMPv6 errors (a closed port, an expired hop limit, a
# packet too big for the next link), and looks by `leaks` whether what it sends back shows the trace:
#     errors.sh [FOLDER]
# FOLDER gets answers.pcap, what the router sent back, leaking.pcap and report.txt. Ends with 0 where all three errors came and were
# found as quotes, and with 77 where it can't be tried (lab.sh says what it needs).
set -u
. "$(dirname "$0")/lab.sh"

build 1280 || cannot "the network namespaces couldn't be set up"
ip -n "$router" ioam namespace add 0 2>/dev/null || true
capture "$sender" "$folder/answers.pcap" -Q in 'icmp6 and ip6[40] < 128'
ip netns exec "$sender" python3 "$here/errors.py" end "$(mac "$router" in)" || cannot "the packets couldn't be sent"
captured "$folder/answers.pcap"
echo "Linux $(uname -r)"
"$ioam" leaks "$folder/answers.pcap" "$folder/leaking.pcap" "$folder/report.txt" || exit 1
cat "$folder/report.txt"
for number in 1 2 3; do grep -q "^$number quotes " "$folder/report.txt" || exit 1; done
