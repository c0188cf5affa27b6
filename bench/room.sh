# What the scripts in bash share: it is read by them, not run. `top` is the repository's folder, `here` that of the script which reads
# it, `make` that of the programs which make what is measured, and `ioam` is the program once `begin` was called: IOAM names one
# that isn't the repository's.
top=$(cd "$(dirname "${BASH_SOURCE[0]}")/.." && pwd)
here=$(cd "$(dirname "$0")" && pwd)
make=$top/bench/make

# Ends the script where a tool is missing.
need() {
    local tool
    for tool in "$@"; do
        command -v "$tool" >/dev/null || {
            echo "bench: $tool is missing (apt-get install tcpdump tshark gcc python3 time valgrind libfixbuf-tools)" >&2
            exit 1
        }
    done
}

# The program: built first where it is the repository's.
program() {
    if [ -n "${IOAM:-}" ]; then ioam=$(realpath "$IOAM"); else
        "$top/ioam" save x x >/dev/null || true
        ioam=$top/crates/ioam/out/ioam
    fi
    need "$ioam"
}

# The program, and a folder to work in, which goes at the end; ends the script where one of these tools is missing.
begin() {
    need python3 "$@"
    program
    room=$(mktemp -d)
    trap 'rm -rf "$room"' EXIT
    cd "$room"
}
