#!/usr/bin/env bash
# Whether others read what `ioam ipfix` writes, and `ioam records` reads what others write: COUNT export records of both versions and
# all eight templates (3,000 where none is given). ipfixDump (libfixbuf), tshark and python3-ipfix read the messages, whose fields are
# compared with the records, each of them; and what python3-ipfix writes of the records comes back by `records`, octet for octet, in
# one file and behind what `ipfix` wrote. Ends with status 1 where something differs.
#     bench/compare/messages.sh [COUNT]
set -eu
. "$(dirname "${BASH_SOURCE[0]}")/../room.sh"
count=${1:-3000}
begin ipfixDump tshark # apt-get install libfixbuf-tools tshark python3-ipfix
system=/usr/bin/python3
"$system" -c 'import ipfix' || { echo "bench: python3-ipfix is missing (apt-get install python3-ipfix)" >&2; exit 1; }
others=$here/messages_by_others.py wrong=0

# same WHAT FILE OTHER: whether two files are the same.
same() { if cmp -s "$2" "$3"; then echo "ok      $1"; else echo "DIFFERS $1"; diff "$2" "$3" | head -4 || true; wrong=1; fi; }

for seed in 1 2; do
    python3 "$others" make "$count" "$seed" >exports
    python3 "$others" records exports >wanted
    "$ioam" ipfix exports messages >/dev/null
    python3 "$others" elements >elements.xml
    ipfixDump --in messages --element-file elements.xml --hexdump=300 2>/dev/null | python3 "$others" dump >dump
    same "$count records as ipfixDump reads them" dump wanted
    tshark -r messages -T pdml 2>/dev/null | tee pdml | python3 "$others" pdml >pdml.lines
    same "as tshark reads them" pdml.lines wanted
    grep -c 'name="_ws.expert"\|name="_ws.malformed"' pdml >notes || true
    same "without a note of tshark's" notes <(echo 0)
    "$system" "$others" read messages >read
    same "as python3-ipfix reads them" read wanted
    "$ioam" records messages back >/dev/null
    same "as records" back exports
    "$system" "$others" write exports foreign
    "$ioam" records foreign back >/dev/null
    same "what python3-ipfix wrote, as records" back exports
    cat messages foreign >both
    "$ioam" records both back >/dev/null
    same "one behind the other" back <(cat exports exports)
done
exit $wrong
