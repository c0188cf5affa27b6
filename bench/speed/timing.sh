# What the scripts that time share: it is read by them, not run.
. "$(dirname "${BASH_SOURCE[0]}")/../room.sh"

# The seconds and the greatest memory in KB of a command, onto the list of its name.
timed() {
    local name=$1
    shift
    need /usr/bin/time
    /usr/bin/time -f '%e %M' -o took "$@" >/dev/null 2>&1
    cat took >>"times.$name"
}

# The least time of a name, in seconds.
base() { sort -n "times.$1" | head -1 | cut -d' ' -f1; }

# Builds yardsticks in C here, by the names of their files.
build() {
    local name
    for name in "$@"; do gcc -O2 -o "$name" "$here/$name.c"; done
}

# The folder `null` with the domain of the measured packets (make_measured.py), whose outputs are thrown away; no two of its files
# may have one name.
throw_away() {
    local name
    mkdir null
    cp readings null/
    ln west.pcap null/west.pcap
    sed 's/"west-out.pcap"/"null1"/; s/"east-out.pcap"/"null2"/; s/"ab.pcap"/"null3"/; s/"cd.pcap"/"null4"/' domain.toml >null/domain.toml
    for name in null1 null2 null3 null4 report exports west-out.pcap east-out.pcap ab.pcap cd.pcap; do ln -s /dev/null "null/$name"; done
}

# COUNT export records over a fifth as many keys (make_exports.py), in `one` and `two` five in eight of them each, in `both` these one
# behind the other, and of each of the two its part and its records as sorted lines.
make_halves() {
    local name
    python3 "$make/make_exports.py" "$1" $(($1 / 5))
    awk 'NR % 8 < 5' lines >one.lines
    awk 'NR % 8 > 3 || NR % 8 == 0' lines >two.lines
    for name in one two; do
        python3 -c 'import sys; sys.stdout.buffer.write(bytes.fromhex(sys.stdin.read()))' <"$name.lines" >"$name"
        "$ioam" part "$name" "$name.part" >/dev/null
        LC_ALL=C sort -u -o "$name.lines" "$name.lines"
    done
    cat one two >both
}
