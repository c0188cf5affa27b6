#!/bin/sh
# What a user meets at the command line: each command with files that are missing, faulty, locked or
# full, or open by another name, and with wrong words. Prints a line for each case: ok or DIFFERS, the
# status, the answer and the words. Ends with status 1 where one differs.
#     bench/compare/user-side.sh
set -u
top=$(cd "$(dirname "$0")/../.." && pwd) || exit 1
# The program is the one that IOAM names, or the repository's, built where that is needed.
if [ -n "${IOAM:-}" ]; then IOAM=$(realpath "$IOAM") && export IOAM; else "$top/ioam" save x x >/dev/null; fi
program=${IOAM:-$top/crates/ioam/out/ioam}
work=$(mktemp -d) && cd "$work" || exit 1
trap 'chmod -R u+rwX "$work"; rm -rf "$work"' EXIT
cp "$program" ioam && cp -r "$top/examples" . || exit 1
domain=examples/three/domain.toml readings=examples/three/readings real=examples/linux-ioam.pcap
# The files. A file's name has at most 255 octets, and `long` has 256.
long=$(printf '%0256d' 0)
mkdir folder shut && : >empty && : >none
printf 'hello, world\n' | tee text >locked
printf '\012\015\015\012\034\0\0\0\115\074\053\032\001\0\0\0\377\377\377\377\377\377\377\377\034\0\0\0' >pcapng
head -c 27 pcapng >cut-block
printf 'IOAMPART\0\020\0' >cut-part
head -c 23 "$real" >cut-head
head -c 100 "$real" >cut-record
{ head -c 20 "$real" && printf '\0\0\0\161'; } >wrong-link
{ head -c 24 "$real" && printf '\0\0\0\0\0\0\0\0\0\004\0\001\0\0\0\0'; } >too-long
cp "$real" x && ln -s x soft && ln x hard && mkfifo pipe
chmod 000 locked && chmod 555 shut
printf 'IOAMPART\0\0\0\0' >none-part && head -c 24 "$real" >none-capture
# What `ipfix` writes first: a set of eight templates of fields, each with its number, its length and an enterprise.
first='\0\012\001\364\0\0\0\0\0\0\0\0\0\0\0\0\0\002\001\344' unsent='packets 0 sent 0 gone 0 skipped 0\n'
for kind in 0 1 2 3 4 5 6 7; do
    fields='1\0\002 2\0\001 3\0\001 4\0\003' count=5
    case $kind in 1 | 3 | 5 | 7) fields="$fields 5\0\010 6\0\004" count=7 ;; esac
    case $kind in 4 | 5 | 6 | 7) fields="$fields 7\0\004" count=$((count + 1)) ;; esac
    case $kind in 2 | 3 | 6 | 7) fields="$fields 10\0\004" count=$((count + 1)) ;; esac
    first="$first\001\00$kind\0\0$(printf %o $count)"
    for field in $fields '11\377\377'; do
        case $field in 1[01]*) ;; *) field=0$field ;; esac
        first="$first\200\0$field\0\0\176\331"
    done
done
as=
if [ "$(id -u)" = 0 ]; then # root may open everything, so the program runs as nobody
    chown -R 65534:65534 . && as='setpriv --reuid=65534 --regid=65534 --clear-groups'
fi
cases=0 wrong=0 file= why=

# named STATUS: a fault of reading or writing names the file on stderr, and why; `usage` the forms of the command line; else nothing
# stands there.
named() {
    case $1 in
    1) if [ "$(cat wanted)" = usage ]; then [ -s stderr ] && ! grep -qvE '^ioam: usage: ioam [a-z]+( [A-Z]+)+$' stderr; else [ ! -s stderr ]; fi ;;
    9 | 10) [ "$(wc -l <stderr)" = 1 ] && grep -qF "ioam: $file: $why" stderr ;;
    *) [ ! -s stderr ] ;;
    esac
}
# judge GOT STATUS WORD..: stdout is to be as wanted, and stderr too.
judge() {
    got=$1 said=DIFFERS
    [ "$got" = "$2" ] && cmp -s stdout wanted && named "$2" && said=ok || wrong=$((wrong + 1))
    cases=$((cases + 1)) && shift 2
    printf '%-8s%3d  %-36.36s %.90s\n' $said "$got" "$(head -n 1 stdout | tr -cd ' -~')" "$*"
}
# want STATUS LINE WORD..: what the program ends with and prints on these words.
want() {
    status=$1 && printf '%s\n' "$2" >wanted && shift 2
    timeout 60 $as ./ioam "$@" >stdout 2>stderr </dev/null
    judge $? "$status" "$@"
}
# holds FILE TEXT: what a file has now, and removes it; gone FILE..: what isn't there.
holds() { : >stderr && printf "$2" >wanted && cat "$1" >stdout 2>stderr; judge 0 0 "  in $1" && rm -f "$1"; }
gone() { for name; do [ ! -e "$name" ] && : >stderr || echo >stderr; : >stdout && : >wanted && judge 0 0 "  no $name"; done; }
# same FILE OTHER: whether two files hold the same.
same() { : >stderr && cat "$2" >wanted && cat "$1" >stdout; judge 0 0 "  $1 is $2"; }
# with_domain KEY NAME: the three nodes, with another name for `in`, or for each `out`.
with_domain() { sed "s|$1 = \"[^\"]*\"|$1 = \"$2\"|" "$domain" >domain.toml; }
# Words and names.
for words in '' filter 'filter a b' 'filter a b c d' 'paths a' 'paths a b c' 'Filter a b c' --help 'run a b 1 c' \
    'run a b 1 c d e' 'run a b 0 c d' 'run a b 01 c d' 'run a b x c d' 'run a b 65 c d' 'run a b -1 c d' 'delays ptp a' 'delays ptp a b c' 'delays tai a b' 'delays PTP a b' 'delays a b' 'collect a' 'collect a b c' 'node a b c d e f g' 'node a b c d e f g h i' 'Node a b c d e f g h' 'bulk 01 2 1 r' 'bulk 1 0 1 r' 'bulk 1 1000001 1 r' 'bulk 1 2 65 r' \
    'audit a b c d e' 'audit a b c d e f g' 'Audit a b c d e f' 'ipfix a' 'ipfix a b c' 'records a' 'records a b c' 'part a' 'part a b c' 'merge a b' 'merge a b c d' 'parts a' 'parts a b c' 'parts'; do
    want 1 usage $words
done
want 1 usage filter "$(printf 'a\377')" out report
# Which forms are said: that of the command, or all.
timeout 60 $as ./ioam part a 2>&1 >/dev/null | sed 's/^ioam: usage: //' >stdout && printf 'ioam part EXPORTS PART\n' >wanted && : >stderr && judge 0 0 '  the form of part'
timeout 60 $as ./ioam help 2>&1 >/dev/null | sed 's/^ioam: usage: //' >stdout && grep -oE '^\| `[a-z].*` \|' "$top/README.md" | grep -oE '`[a-z]+( [A-Z]+)+`' | sed 's/`\(.*\)`/ioam \1/' >wanted && sort -o stdout stdout && sort -o wanted wanted && : >stderr && judge 0 0 '  all forms'
want 1 usage run "$domain" "$readings" '' report exports
want 2 "names $real" filter "$real" "$real" report
want 2 "names $real" filter "$real" out "$real"
want 2 'names out' filter "$real" out out
want 2 "names $real" paths "$real" "$real"
want 2 "names $real" delays ptp "$real" "$real"
want 2 'names empty' run empty empty 1 report exports
want 2 "names $domain" run "$domain" "$readings" 1 "$domain" exports
want 2 'names report' run "$domain" "$readings" 1 report report
want 2 'names west-out.pcap' run "$domain" "$readings" 1 report west-out.pcap
# NODE and LINK come before the files, DOMAIN and READINGS before all names; NODE and LINK name no files.
want 2 'names z' node "$domain" "$readings" z zz "$real" "$real" report report
want 2 'names zz' node "$domain" "$readings" b zz "$real" out report report
want 2 'names bc' node "$domain" "$readings" b bc "$real" out report exports # bc ends at c
want 2 'names b' node "$domain" "$readings" b ab b out report b
want 2 'names b' node empty none b ab "$real" out report exports
want 2 "names $real" node "$domain" "$readings" b ab "$real" "$real" report exports
want 2 "names $domain" node "$domain" "$readings" b ab "$real" out "$domain" exports
want 2 "names $readings" node "$domain" "$readings" b ab "$readings" out report exports
want 2 'names out' node "$domain" "$readings" b ab "$real" out out out
want 2 'names report' node "$domain" "$readings" b ab missing out report report
sed 's/mtu = 1500 }/mtu = 1279 }/' "$domain" >domain.toml
want 3 'domain link 1 mtu range' node domain.toml missing z zz missing out report report
want 3 'domain link 1 mtu range' audit domain.toml z zz missing missing missing
gone out report exports
with_domain in west-out.pcap && want 2 'names west-out.pcap' run domain.toml "$readings" 1 report exports
with_domain out domain.toml && want 2 'names domain.toml' run domain.toml "$readings" 1 report exports
want 2 'names z' audit "$domain" z zz missing missing missing
want 2 'names zz' audit "$domain" b zz "$real" missing report
want 2 'names bc' audit "$domain" b bc "$real" missing report # bc ends at c
want 2 "names $domain" audit "$domain" b ab "$domain" x report
want 2 'names x' audit "$domain" b ab x x report
want 2 'names x' audit "$domain" b ab "$real" x x
want 2 "names $real" audit "$domain" b ab "$real" x "$real"
for words in 'ipfix x x' 'records x x' 'part x x' 'parts x x' 'merge x x out' 'merge x out x' 'merge missing x x'; do want 2 'names x' $words; done
gone out report missing
# Each kind of file as IN, a port's `in`, DOMAIN and READINGS, first those after which no output is opened.
for file in missing locked "$long"; do
    want 9 'read fault' filter "$file" out report
    want 9 'read fault' paths "$file" report
    want 9 'read fault' delays ptp "$file" report
    want 9 'read fault' run "$file" "$readings" 1 report exports
    want 9 'read fault' run "$domain" "$file" 1 report exports
    want 9 'read fault' node "$file" "$readings" b ab "$real" out report exports
    want 9 'read fault' node "$domain" "$file" b ab "$real" out report exports
    want 9 'read fault' node "$domain" "$readings" b ab "$file" out report exports
    with_domain in "$file" && [ "$file" != "$long" ] && want 9 'read fault' run domain.toml "$readings" 1 report exports
    want 9 'read fault' audit "$file" b ab "$real" x report
    want 9 'read fault' audit "$domain" b ab "$file" x report
    want 9 'read fault' audit "$domain" b ab "$real" "$file" report
    for words in ipfix records part parts; do want 9 'read fault' $words "$file" out; done
    want 9 'read fault' merge "$file" none-part out
    want 9 'read fault' merge none-part "$file" out
done
want 3 'domain port 1 in range' run domain.toml "$readings" 1 report exports
file=folder why='Is a directory'
want 9 'read fault' run folder "$readings" 1 report exports
want 9 'read fault' run "$domain" folder 1 report exports
want 9 'read fault' node folder "$readings" b ab "$real" out report exports
want 9 'read fault' node "$domain" folder b ab "$real" out report exports
want 9 'read fault' audit folder b ab "$real" x report
want 9 'read fault' parts folder report
want 9 'read fault' merge folder missing out
want 9 'read fault' merge none-part folder out
gone out report
# behind these an output is opened, and has what belongs to the records or packets in front
want 9 'read fault' ipfix folder out && holds out "$first"
want 9 'read fault' records folder out && holds out ''
want 9 'read fault' part folder out && holds out 'IOAMPART\0\0\0\0'
want 9 'read fault' audit "$domain" b ab folder none-capture report && holds report "$unsent"
want 9 'read fault' audit "$domain" b ab none-capture folder report && holds report "$unsent"
why=
for file in text pcapng; do
    want 3 'domain top 0 - text' audit "$file" z zz missing missing missing
    want 3 'domain top 0 - text' run "$file" "$readings" 1 report exports
    want 3 'domain top 0 - text' node "$file" "$readings" b ab "$real" out report exports
done
want 4 'readings 1 words' run "$domain" text 1 report report # before equal names
want 4 'readings 1 words' node "$domain" text z zz "$real" out report report # before NODE and LINK
want 4 'readings 2 words' run "$domain" pcapng 1 report exports # its first octet is a line feed
gone out report exports west-out.pcap east-out.pcap
want 0 done run empty none 1 report exports && holds report 'packets 0 left 0 dropped 0\n' && holds exports ''
want 0 done run "$domain" empty 1 report exports
head='\241\262\074\115\0\002\0\004\0\0\0\0\0\0\0\0\0\004\0\0\0\0\0\145'
blocks='\012\015\015\012\0\0\0\034\032\053\074\115\0\001\0\0\377\377\377\377\377\377\377\377\0\0\0\034'
for kind in 145 001; do
    blocks=$blocks'\0\0\0\001\0\0\0\040\0\'$kind'\0\0\0\004\0\0\0\011\0\001\011\0\0\0\0\0\0\0\0\0\0\040'
done
nodes='node a seen 0 dropped 0\nnode b seen 0 dropped 0\nnode c seen 0 dropped 0\nflow f enclosed 0 exited 0 direct 0\n'
while read -r file status line; do
    want "$status" "$line" filter "$file" out report && holds out "$head" && holds report 'packets 0 kept 0 dropped 0\n'
    want "$status" "$line" paths "$file" report && holds report 'packets 0\n'
    want "$status" "$line" delays ptp "$file" report && holds report 'format ptp fractions 0 most - narrowest -\ntraces 0 overflow 0 bad 0\npackets 0 skipped 0\n'
    want "$status" "$line" save "$file" out && holds out "$blocks"
    want "$status" "$line" node "$domain" none b ab "$file" out report exports
    holds out "$head" && holds report 'packets 0 out 0 dropped 0\n' && holds exports ''
    with_domain in "$file" && want "$status" "$line" run domain.toml none 1 report exports
    holds report "packets 0 left 0 dropped 0\n$nodes" && holds exports '' && holds west-out.pcap "$head" && holds east-out.pcap "$head" && holds bc.pcap "$head"
done <<ends
folder 9 read fault
empty 5 capture empty 0 short 0
text 5 capture text 0 magic 1751477356
pcapng 0 done
cut-block 5 capture cut-block 0 short 27
cut-head 5 capture cut-head 0 short 23
cut-record 5 capture cut-record 24 short 76
wrong-link 5 capture wrong-link 0 link 113
too-long 5 capture too-long 24 long 262145
ends

# Export records, messages and parts: each kind of file, and what then stands in the output.
while read -r file status line; do
    want "$status" "$line" ipfix "$file" out && holds out "$first"
    want "$status" "$line" part "$file" out && holds out 'IOAMPART\0\0\0\0'
done <<ends
none 0 done
text 6 exports 0 version 104
x 6 exports 0 version $(head -c 1 x | od -An -tu1 | tr -d ' ')
ends
while read -r file status line; do want "$status" "$line" records "$file" out && holds out ''; done <<ends
none 0 done
text 12 ipfix 0 version 26725
pcapng 12 ipfix 0 version 2573
none-part 12 ipfix 0 version 18767
ends
while read -r file line; do
    want 13 "part $file $line" parts "$file" out && want 13 "part $file $line" merge "$file" missing out
    want 13 "part $file $line" merge none-part "$file" out && gone out
done <<ends
none 0 short 0
text 0 mark
cut-part 8 short 3
ends
want 0 done parts none-part report && holds report 'kept 0\n'
want 0 done audit "$domain" b ab none-capture x report && holds report "$unsent"'verdict no 1\n'
want 5 'capture empty 0 short 0' audit "$domain" b ab empty x report && holds report "$unsent"
want 5 'capture empty 0 short 0' audit "$domain" b ab none-capture empty report && holds report "$unsent"
want 5 'capture empty 0 short 0' audit "$domain" b ab empty text report && holds report "$unsent"
want 5 'capture cut-head 0 short 23' audit "$domain" b ab cut-head text report && holds report "$unsent"

# Records that a run exported, as messages and back, and as parts that are merged.
want 0 done run "$domain" "$readings" 1 report records.all && want 0 done ipfix records.all messages
want 0 done records messages out && same out records.all && rm -f out
head -c 136 records.all >records.some && want 0 done part records.some some.part && want 0 done part records.all all.part
want 0 done merge some.part all.part out && same out all.part && want 0 done merge all.part none-part out && same out all.part
want 0 done collect records.all collected && want 0 done parts all.part report && rm -f out
sed '$d' collected >wanted && sed '$d' report >stdout && : >stderr && judge 0 0 '  groups in report'
timeout 60 cat messages >pipe & want 0 done records pipe out && same out records.all && rm -f out
timeout 60 cat all.part >pipe & want 0 done merge some.part pipe out && same out all.part && rm -f out
timeout 60 cat x >pipe & want 0 done audit "$domain" b ab none-capture pipe report && rm -f report

# Each kind of name as an output.
for file in shut/out folder missing/out "$long" /dev/full; do
    want 10 'write fault' filter "$real" "$file" report
    want 10 'write fault' filter "$real" out "$file"
    want 10 'write fault' paths "$real" "$file"
    want 10 'write fault' delays ptp "$real" "$file"
    want 10 'write fault' node "$domain" "$readings" b ab "$real" "$file" report exports
    want 10 'write fault' node "$domain" "$readings" b ab "$real" out "$file" exports
    [ "$file" = /dev/full ] || want 10 'write fault' node "$domain" "$readings" b ab "$real" out report "$file" # EXPORTS is empty
    want 10 'write fault' run "$domain" "$readings" 1 "$file" exports
    [ "$file" = /dev/full ] || want 10 'write fault' run "$domain" "$readings" 1 report "$file" # EXPORTS is empty
    with_domain out "$file" && sed -i 's|\(in = .*\)out = "[^"]*"|\1out = "west-out.pcap"|' domain.toml
    [ "$file" = "$long" ] || want 10 'write fault' run domain.toml "$readings" 1 report exports
    want 10 'write fault' audit "$domain" b ab "$real" x "$file"
    want 10 'write fault' ipfix records.all "$file" && want 10 'write fault' records messages "$file"
    want 10 'write fault' part records.all "$file" && want 10 'write fault' parts all.part "$file"
    want 10 'write fault' merge some.part all.part "$file"
done

# A file that is open, by another name as an output: it stays as it is. Devices and pipes may stand twice.
# same FILE OTHER: they hold the same.
for file in ./x soft hard "$work/x"; do
    why='is an input of this run'
    want 10 'write fault' filter x "$file" report && want 10 'write fault' filter x out "$file"
    want 10 'write fault' paths x "$file"
    want 10 'write fault' delays ptp x "$file"
    want 10 'write fault' node "$domain" "$readings" b ab x "$file" report exports
    want 10 'write fault' node "$domain" "$readings" b ab x out report "$file"
    with_domain in x && want 10 'write fault' run domain.toml "$readings" 1 "$file" exports
    want 10 'write fault' audit "$domain" b ab x "$real" "$file" && want 10 'write fault' audit "$domain" b ab "$real" x "$file"
    with_domain in x && sed -i "s|\(in = .*\)out = \"[^\"]*\"|\1out = \"$file\"|" domain.toml
    want 10 'write fault' run domain.toml "$readings" 1 report exports
    same x "$real"
done
for name in records.all messages all.part; do
    file=./$name && cp $name kept
    case $name in records.all) words='ipfix part' ;; messages) words=records ;; *) words=parts ;; esac
    for word in $words; do want 10 'write fault' $word $name "$file"; done
    [ $name != all.part ] || { want 10 'write fault' merge some.part $name "$file" && want 10 'write fault' merge $name some.part "$file"; }
    same $name kept
done
file=./$domain && want 10 'write fault' audit "$domain" b ab x "$real" "$file" && want 10 'write fault' run "$domain" "$readings" 1 "$file" exports && want 10 'write fault' node "$domain" "$readings" b ab x "$file" report exports
file=./$readings && want 10 'write fault' run "$domain" "$readings" 1 report "$file" && want 10 'write fault' node "$domain" "$readings" b ab x out report "$file"
file=./out why='is an output of this run already'
want 10 'write fault' node "$domain" "$readings" b ab x out report ./out
want 10 'write fault' filter x out ./out && want 10 'write fault' run "$domain" "$readings" 1 out ./out
why= && want 0 done filter x /dev/null /dev//null
want 5 'capture /dev/null 0 short 0' filter /dev/null /dev//null report
cat pipe >piped & want 0 done filter x pipe ./pipe && kill $! 2>/dev/null

# A live pipe: what the first packet shows is written while the pipe is open, and stays when a signal ends the program.
first() { # first CAPTURE: its first packet alone, as one.pcap
    size=$(od --endian=big -An -tu4 -j 32 -N 4 "$1") && one=$((40 + size)) && head -c "$one" "$1" >one.pcap
}
mkfifo live && chmod 666 live && first "$real"
live() { # live DROPPED FILE WORD..: the file of the words that read `live` is that of one packet, but for its last DROPPED lines
    dropped=$1 file=$2 && shift 2
    timeout 60 $as ./ioam $(printf '%s ' "$@" | sed 's/live/one.pcap/') >/dev/null 2>&1
    if [ "$dropped" = 0 ]; then cp "$file" wanted; else head -n -"$dropped" "$file" >wanted; fi
    rm -f "$file"
    timeout 60 $as ./ioam "$@" >/dev/null 2>stderr &
    reader=$! && exec 7>live && cat one.pcap >&7
    for _ in 1 2 3 4 5 6 7 8 9 10 11 12 13 14 15 16 17 18 19 20; do cmp -s "$file" wanted && break; sleep 0.1; done
    kill -INT $reader && wait $reader 2>/dev/null
    exec 7>&- && cp "$file" stdout && : >stderr && judge 0 0 "$@" ', live'
}
live 1 report paths live report && live 1 report show live report && live 1 report filter live out report && live 0 out save live out
first examples/audit/after.pcap && live 9 report audit examples/one-node/domain.toml three two-three examples/audit/before.pcap live report
# A port's capture is a live pipe: `run` reports its packet before the next comes.
first examples/three/west.pcap && for name in live one.pcap; do with_domain in "$name" && mv domain.toml "$name.toml"; done
live 5 report run live.toml "$readings" 1 report exports
rm -f out report one.pcap exports west-out.pcap east-out.pcap bc.pcap live.toml one.pcap.toml

# What crosses ab comes to b, and what b sends is what crosses bc: with no delay on ab at the same times. Files named as NODE and LINK.
sed 's/delay = 1000, mtu = 1500 }/delay = 0, mtu = 1500, tap = "ab.pcap" }/' "$domain" >domain.toml
want 0 done run domain.toml "$readings" 1 report exports
want 0 done node domain.toml "$readings" b ab ab.pcap b ab exports && same b bc.pcap
rm -f ab.pcap bc.pcap b ab report exports

# The suite for routers: what `node` makes of it is as the rules allow, and four wrong answers are found at their vectors.
suite=examples/conformance
# judged STATUS LINES AFTER: what judge.sh says of a capture, but for its lines of answers that aren't wrong.
judged() {
    printf "$2" >wanted && IOAM=$work/ioam timeout 60 $as $suite/judge.sh $suite/suite.pcap "$3" >said 2>&1
    got=$? && : >stderr && grep -E 'not legal|^judge' said >stdout
    judge $got "$1" judge.sh "$3"
}
want 0 done node $suite/domain.toml $suite/readings router in $suite/suite.pcap out.pcap report exports
judged 0 'sent 173 gone 2 not legal 0 unjudged 12 not played 0\n' out.pcap
head -c 24 out.pcap >nothing && judged 2 'judge.sh: nothing has no packet of the suite (without VLAN tags, and between its addresses)\n' nothing
judged 2 'judge.sh: save answers: read fault\n' missing
judged 2 'judge.sh: save answers: capture text 0 magic 1751477356\n' text
if command -v python3 >/dev/null; then
    python3 $suite/wrong.py out.pcap wrong >vectors
    while read -r name vector _; do
        judged 1 "$(printf '%6d' "$vector")  not legal  $(sed -n "s/^| $vector | \([^|]*\) | [^|]* | \(.*\) |$/\1 (wanted: \2)/p" $suite/suite.md)\nsent 172 gone 2 not legal 1 unjudged 12 not played 0\n" "wrong/$name.pcap"
    done <vectors
fi
rm -f out.pcap nothing report exports said vectors

# An answer that can't be printed: the status says it, and the outputs are the same.
want 0 done filter "$real" out report && cp out out-1 && cp report report-1
for way in '>&-' '>/dev/full' '>&- <&-' '>&- 2>&- <&-' '| head -c 0'; do
    rm -f out report && : >stdout && : >stderr && : >wanted
    sh -c "{ timeout 60 $as ./ioam filter $real out report; echo \$? >&3; } 3>got $way" 2>stderr
    judge "$(cat got)" 0 "filter $real out report $way"
    cat out report >stdout && cat out-1 report-1 >wanted && judge 0 0 '  in out and report'
done
# What ./ioam-install writes into a folder and takes away again, and what it says without one.
"$top/ioam-install" "$work/usr" >stdout 2>stderr
got=$? && find "$work/usr" -type f | LC_ALL=C sort >wanted && LC_ALL=C sort -o stdout stdout && judge $got 0 ioam-install usr
printf 'usage\n' >wanted && usr/bin/ioam >stdout 2>stderr
judge $? 1 usr/bin/ioam
find "$work/usr" -type f | LC_ALL=C sort >wanted
"$top/ioam-install" --uninstall "$work/usr" >stdout 2>stderr
got=$? && LC_ALL=C sort -o stdout stdout && judge $got 0 ioam-install --uninstall usr
: >wanted && find usr -type f >stdout && judge 0 0 '  leaves nothing'
: >wanted && "$top/ioam-install" >stdout 2>said
got=$? && : >stderr && judge $got 125 ioam-install

echo "$cases cases, $wrong differ" && [ "$wrong" = 0 ]
