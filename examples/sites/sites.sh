#!/usr/bin/env bash
# Export records that were collected at several sites, each with a collector of its own, and joined by engines of the system: along
# whatever tree of merges, in whatever order and with whatever repeats, the part is the same, octet for octet.
#
#     examples/sites/sites.sh [EXPORTS [SITES]]
#
# EXPORTS (3,000 records that bench/make/make_exports.py makes, where none is given) is cut behind its records into SITES pieces (8), of
# which some records stand in two. A part is made of each, and the parts are merged
#   - one behind the other,
#   - in a tree by `make -j`,
#   - in a tree by GNU parallel, level by level, in a shuffled order, on the machines of the list SSHLOGINS (`:`, this one),
#   - in such a tree in which each part stands twice,
#   - with itself, and with one that it has already.
# Each is compared with the part of EXPORTS itself, and the groups that `parts` prints with those of `collect`; the status is 1 where
# something differs. IOAM names the program where it isn't the repository's. (apt-get install make parallel python3)
set -eu
top=$(cd "$(dirname "${BASH_SOURCE[0]}")/../.." && pwd)
ioam=${IOAM:-$top/ioam} logins=${SSHLOGINS:-:} sites=${2:-8}
for tool in make parallel python3; do
    command -v "$tool" >/dev/null || { echo "sites: $tool is missing (apt-get install make parallel python3)" >&2; exit 1; }
done
given=${1:+$(realpath "$1")}
work=$(mktemp -d)
trap 'rm -rf "$work"' EXIT
cd "$work"
if [ -n "$given" ]; then cp "$given" exports; else python3 "$top/bench/make/make_exports.py" 3000 600; fi

# the pieces: each site has its own records, and every third of its neighbour's
python3 - "$sites" <<'PY'
import sys
octets, sites, records, at = open("exports", "rb").read(), int(sys.argv[1]), [], 0
while at < len(octets):
    size = int.from_bytes(octets[at + 2:at + 4], "big")
    records.append(octets[at:at + size])
    at += size
for site in range(sites):
    with open(f"site{site}.exports", "wb") as piece:
        piece.write(b"".join(records[site::sites] + records[(site + 1) % sites::sites][::3]))
PY

# same HOW PART: whether a part is that of all records.
same() { cmp "$2" whole.part && echo "the same: $1" || { echo "DIFFERS: $1" >&2; exit 1; }; }

# each COMMAND..: GNU parallel over the lines of its input. Where the machines have no common disk, this wants also
# --transferfile {1} --transferfile {2} --return {3} --cleanup
each() { parallel --will-cite --halt now,fail=1 --sshlogin "$logins" --workdir "$work" "$@" '>' /dev/null; }

# tree OUT PART..: merges parts into one, level by level, two at a time.
tree() {
    local out=$1 level=0 at pairs next
    shift
    while [ $# -gt 1 ]; do
        pairs=() next=() at=0
        while [ $# -gt 1 ]; do
            pairs+=("$1" "$2" "$out.$level.$at") next+=("$out.$level.$at") at=$((at + 1))
            shift 2
        done
        printf '%s\n' "${pairs[@]}" | each -N3 "$ioam" merge {1} {2} {3}
        set -- "${next[@]}" "$@"
        level=$((level + 1))
    done
    cp "$1" "$out"
}

# A makefile of such a tree, in which each merge waits for its two parts alone.
makefile() {
    local at=0
    while [ $# -gt 1 ]; do
        printf 'made.%d: %s %s\n\t@%s merge %s %s $@ >/dev/null\n' "$at" "$1" "$2" "$ioam" "$1" "$2"
        set -- "${@:3}" "made.$at"
        at=$((at + 1))
    done
    printf 'made: %s\n\t@cp $< $@\n' "$1"
}

"$ioam" part exports whole.part >/dev/null
seq 0 $((sites - 1)) | each "$ioam" part site{}.exports site{}.part
mapfile -t parts < <(seq -f 'site%g.part' 0 $((sites - 1)))

cp "${parts[0]}" joined
for part in "${parts[@]:1}"; do
    "$ioam" merge joined "$part" next >/dev/null
    mv next joined
done
same 'one behind the other' joined

makefile "${parts[@]}" >merges.mk
make -s -j "$(nproc)" -f merges.mk made
same 'a tree by make -j' made

mapfile -t shuffled < <(shuf -e "${parts[@]}")
tree shuffled "${shuffled[@]}"
same 'a shuffled tree by parallel' shuffled

for part in "${parts[@]}"; do cp "$part" "again.$part"; done
mapfile -t twice < <(shuf -e "${parts[@]}" "${parts[@]/#/again.}")
tree doubled "${twice[@]}"
same 'a shuffled tree with each part twice' doubled

cp doubled copy
"$ioam" merge doubled copy once >/dev/null
same 'with itself' once
"$ioam" merge doubled "${parts[0]}" more >/dev/null
same 'with one that it has' more

"$ioam" collect exports collected >/dev/null
"$ioam" parts doubled printed >/dev/null
cmp <(sed '$d' collected) <(sed '$d' printed) && echo "the same: the groups of parts and of collect ($(tail -n 1 printed))"
