# What the benchmark scripts over a line of nodes share (make_line.py): it is read by them, not run.

# The kinds of traces, by name: type, capacity, and what else.
kinds() {
    echo 'nothing 0 1'
    echo 'one-word 0x800000 61'
    echo 'wide-trace 0xfff002 61 snapshot=8'
    echo 'full-trace 0xfff002 61'
    echo 'exports 0 1 direct'
    echo 'wide-exports 0xfef002 61 direct snapshot=8'
}

# Builds a yardstick in C, by its file, for a line of so many nodes and a kind, under the name of the file.
yardstick() {
    local source=$1 nodes=$2 kind=$3 capacity=$4 direct=0 words=-1 word
    shift 4
    for word in "$@"; do
        case $word in
            direct) [ "$kind" = 0 ] && direct=0x800000 || direct=$kind ;;
            snapshot=*) words=${word#*=} ;;
        esac
    done
    gcc -O2 -pthread -DNODES="$nodes" -DTRACE="$kind" -DCAPACITY="$capacity" -DDIRECT="$direct" -DWORDS="$words" \
        -o "$(basename "$source" .c)" "$source"
}
