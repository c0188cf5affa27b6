# Completion of ioam for bash: the commands, the formats of `delays`, and names of files.
_ioam() {
    local word=${COMP_WORDS[COMP_CWORD]}
    if [ "$COMP_CWORD" = 1 ]; then
        mapfile -t COMPREPLY < <(compgen -W 'audit bulk collect delays filter ipfix leaks merge node part parts paths records run save show' -- "$word")
    elif [ "$COMP_CWORD" = 2 ] && [ "${COMP_WORDS[1]}" = delays ]; then
        mapfile -t COMPREPLY < <(compgen -W 'ntp posix ptp' -- "$word")
    else
        compopt -o filenames
        mapfile -t COMPREPLY < <(compgen -f -- "$word")
    fi
}
complete -F _ioam ioam
