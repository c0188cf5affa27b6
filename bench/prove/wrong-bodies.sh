#!/usr/bin/env bash
# Tries the wrong bodies that the gate leaves out, those in crates/NAME/wrong-bodies/, beside those in
# crates/NAME/must-fail/, which the gate tries too. The prover must refuse each; the script ends with status 1
# where one is still proved or can't be tried. Where `rt check` has proved the crate, each takes 20 to 40 seconds, else
# the first takes the crate's whole proof:
#     bench/prove/wrong-bodies.sh [NAME..]
# With no names all crates that have some are tried, which takes an hour or more on four cores.
set -eu
top=$(cd "$(dirname "${BASH_SOURCE[0]}")/../.." && pwd)
cd "$top"
if [ $# = 0 ]; then
    mapfile -t names < <(find crates -path '*/wrong-bodies/*.edit' | cut -d/ -f2 | sort -u)
    set -- "${names[@]}"
fi

# What was lent to the folders that the kit reads is taken back, however the script ends.
lent=$(mktemp)
give_back() {
    while read -r file; do rm -f "$file"; done <"$lent"
    find crates -name must-fail -type d -empty -delete
    rm -f "$lent"
}
trap give_back EXIT

for name in "$@"; do
    mkdir -p "crates/$name/must-fail"
    for edit in "crates/$name/wrong-bodies"/*.edit; do
        [ -f "$edit" ] || continue
        to=crates/$name/must-fail/$(basename "$edit")
        [ ! -e "$to" ] || {
            echo "wrong-bodies: $edit stands in must-fail/ too" >&2
            exit 1
        }
        echo "$to" >>"$lent"
        cp "$edit" "$to"
    done
done
rt must-fail "$@"
