#!/bin/sh
# Says of each vector of the suite what a router made of it, by its flow label, whatever order the packets came in:
#     judge.sh BEFORE AFTER
# BEFORE is a capture of what came to the router (suite.pcap itself will do), AFTER of what it sent on; packets of other addresses
# than the suite's don't count. In the environment DOMAIN names another domain.toml, SUITE another folder of suite.pcap and
# suite.md, IOAM another program than the repository's (or, if it has none, that of PATH). Ends with status 0 if no answer is
# wrong, 1 if one is, 2 if that can't be said.
set -u
here=$(cd "$(dirname "$0")" && pwd) || exit 2
program=${IOAM:-$here/../../ioam}
[ -n "${IOAM:-}" ] || [ -f "$program" ] || program=ioam
domain=${DOMAIN:-$here/domain.toml} suite=${SUITE:-$here}
cannot() { echo "judge.sh: $1" >&2; exit 2; }
[ $# = 2 ] || { echo "judge.sh BEFORE AFTER" >&2; exit 2; }
[ ! -d "$program" ] && command -v "$program" >/dev/null || cannot "there is no program $program"
for file in "$suite/suite.pcap" "$suite/suite.md" "$domain"; do [ -f "$file" ] || cannot "there is no file $file"; done
room=$(mktemp -d) || exit 2
trap 'rm -rf "$room"' EXIT
trap 'exit 2' INT TERM

# ask WORD..: runs the program; what it refuses ends this too.
ask() { "$program" "$@" >"$room/said" || cannot "$1 answers: $(cat "$room/said")"; }
# list NAME CAPTURE: NAME.list gets a line for each packet of the suite, by vector: the vector, the place and length of its block
# in NAME.ng, its octets and the line's number N; NAME.N gets the block. The plain pcapng that `save` writes has blocks from
# octet 92 on: the length at 4, the interface at 8 (1 is Ethernet), the captured length at 20, the frame at 28.
list() {
    ask save "$2" "$room/$1.ng"
    od -An -v -tx1 "$room/$1.ng" | tr -s ' ' '\n' | awk -v way="$way" 'NF { octet[count++] = $1 }
        BEGIN { for (i = 0; i < 256; i++) value[sprintf("%02x", i)] = i }
        function number(at, size, sum) { sum = 0; while (size--) sum = 256 * sum + value[octet[at++]]; return sum }
        function text(at, size, all) { all = ""; while (size-- > 0) all = all octet[at++]; return all }
        END { for (at = 92; at < count; at += total) {
            total = number(at + 4, 4); skip = 14 * number(at + 8, 4); start = at + 28 + skip
            if (text(start + 8, 32) == way) print number(start + 1, 3) % 1048576, at + 1, total, text(start, number(at + 20, 4) - skip)
        } }' | sort -s -n -k 1,1 | awk '{ print $0, NR }' >"$room/$1.list"
    while read -r _ at size _ n; do tail -c "+$at" "$room/$1.ng" | head -c "$size" >"$room/$1.$n"; done <"$room/$1.list"
    lay "$1" "$1" && ask show "$room/$1.pcapng" "$room/$1.show"
}
# lay LIST NAME: LIST.pcapng is a capture of the packets of LIST.list, which are NAME's.
lay() { { head -c 92 "$room/$2.ng" && awk -v name="$room/$2." '{ print name $5 }' "$room/$1.list" | xargs cat; } >"$room/$1.pcapng"; }

way=$(head -c 94 "$suite/suite.pcap" | tail -c 32 | od -An -v -tx1 | tr -d ' \n') # both addresses of the first packet
list before "$1" && list after "$2"
[ -s "$room/before.list" ] || cannot "$1 has no packet of the suite"
[ -s "$room/after.list" ] || cannot "$2 has no packet of the suite (without VLAN tags, and between its addresses)"
# A packet that no command reads isn't judged, sent or not, and neither is one of which suite.md says so. Of the others audit says
# which is the first of AFTER that is left: that one is wrong, and is taken away, and audit looks at the rest, until nothing is left.
awk 'FILENAME ~ /md$/ { if (/ isn.t judged: /) apart[$2] = 1; next }
    FILENAME ~ /show$/ { if ($2 == "skip") skipped[$1] = 1; next } FILENAME ~ /before.list$/ { if ($5 in skipped) apart[$1] = 1; next }
    !($1 in apart)' "$suite/suite.md" "$room/before.show" "$room/before.list" "$room/after.list" >"$room/left.list"
: >"$room/wrong"
while lay left after && ask audit "$domain" router in "$room/before.pcapng" "$room/left.pcapng" "$room/audit" &&
    first=$(sed -n 's/^verdict no //p' "$room/audit") && [ -n "$first" ]; do
    sed -n "${first}p" "$room/left.list" >>"$room/wrong"
    sed "${first}d" "$room/left.list" >"$room/rest" && mv "$room/rest" "$room/left.list"
done
awk -F ' [|] ' -v room="$room" '
    function pair(left, right) { printf "        %-58s | %s\n", left, right }
    function lines(name, n, line, inside, all) { # of NAME.show, those of packet n
        while ((getline line <(room name ".show")) > 0) {
            if (line ~ /^[^ ]/) { inside = index(line, n " ") == 1; line = " " substr(line, length(n) + 1) }
            if (inside) all = all "\n" substr(line, 3) }
        close(room name ".show"); return all
    }
    function differences(old, new, at, end) { # by words of 4 octets
        for (at = 1; at < length(old); at = end) if (substr(old, end = at, 8) == substr(new, at, 8)) end = at + 8; else {
            while (end < length(old) && substr(old, end, 8) != substr(new, end, 8)) end += 8
            pair("octet " (at - 1) / 2 ": " substr(old, at, end - at), substr(new, at, end - at)) } }
    function tell(n, rows, more, i) { # the packet before, and the one that is left after, beside each other
        pair("before: " length(old[n]) / 2 " octets", "after: " length(wrong[n]) / 2 " octets")
        rows = split(lines("/before", old_place[n]), left, "\n"); more = split(lines("/after", place[n]), right, "\n")
        for (i = 2; i <= rows || i <= more; i++) pair(i <= rows ? left[i] : "", i <= more ? right[i] : "")
        if (length(old[n]) == length(wrong[n])) differences(old[n], wrong[n])
    }
    function octet(octets, at) { return 16 * (index(hex, substr(octets, 2 * at + 1, 1)) - 1) + index(hex, substr(octets, 2 * at + 2, 1)) - 1 }
    function wanted(n, may, ours, text, came, sent) { # what suite.md wants of packet n, and what is wrong without a look into the trace
        text = " (wanted" (ours ? ", by our reading" : "") ": " may ")"; came = octet(old[n], 7); sent = octet(wrong[n], 7)
        if (sent != came - 1) text = text "; hop limit " sent (came > 1 ? ", wanted " came - 1 : ", wanted none")
        if (passed[n] > arrived[n]) text = text "; sent " (passed[n] == 2 ? "twice" : passed[n] " times")
        return text
    }
    function answered(n, said, what) { count[said]++; printf "%6d  %-10s %s\n", n, said, what; if (n in wrong) tell(n) }
    BEGIN {
        hex = "0123456789abcdef"
        while ((getline line <(room "/before.list")) > 0) {
            split(line, part, " "); vector[part[5]] = part[1]; arrived[part[1]]++; old[part[1]] = part[4]; old_place[part[1]] = part[5] }
        while ((getline line <(room "/after.list")) > 0) { split(line, part, " "); passed[part[1]]++ }
        while ((getline line <(room "/audit")) > 0) if (split(line, part, " ") && part[1] in vector && answer[n = vector[part[1]]] != "sent")
            answer[n] = part[2] == "skip" ? "unjudged" : part[2]
        while ((getline line <(room "/wrong")) > 0) if (split(line, part, " ") && !(part[1] in wrong)) { wrong[part[1]] = part[4]; place[part[1]] = part[5] }
        print "vector  answer     what it is" }
    /^[|] [0-9]/ { n = substr($1, 3) + 0; suite[n] = 1; sub(/ [|]$/, "", $4)
        said = n in wrong ? "not legal" : !(n in answer) ? "not played" : $4 ~ /^isn.t judged: / ? "unjudged" : answer[n]
        answered(n, said, $2 (n in wrong ? wanted(n, $4, $3 ~ /our reading$/) : said != "unjudged" ? "" : n in passed ? "; it was sent" : "; it is gone")) }
    END {
        for (n in wrong) if (!(n in suite)) answered(n, "not legal", "a flow label of no vector")
        printf "sent %d gone %d not legal %d unjudged %d not played %d\n", count["sent"], count["gone"], count["not legal"], count["unjudged"], count["not played"]
        exit count["not legal"] > 0
    }' "$suite/suite.md"
