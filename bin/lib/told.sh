# What `tcm` says of itself, and of the statuses that the program ends with in silence.

version() {
    echo "tcm $(cat "$lib/VERSION" 2>/dev/null || cat "$top/VERSION")"
    if [ -r "$lib/release.txt" ]; then
        cat "$lib/release.txt"
    else
        sed '/^sources /d' "$top/dist/tcm.txt" 2>/dev/null
        echo "commit $(git -C "$top" rev-parse HEAD 2>/dev/null || echo unknown)"
    fi
}

# Says what is safe after a call of a disk failed.
tell_of_disk() {
    commands="$name disk get $2 LOG > LOG && $name disk put NEW-DISK LOG < LOG"
    commands="$commands && $name on NEW-DISK commit LOG CLUSTER"
    echo "tcm: a device whose sync failed may have forgotten what it had taken, though the disk still reads well. Unless" \
        "you know that no sync failed, go on with a new disk on another device: $commands" >&2
}

# Says which files of `mend2 OLD NEW` are there.
tell_of_mend2() {
    old="isn't there" new="isn't there"
    [ ! -e "$2" ] || old="is there"
    [ ! -e "$3" ] || new="is there"
    echo "tcm: status 7: $2, which is read, $old; $3, which is to be made, $new; see $pages/operators.md," \
        '"A log of format 1"' >&2
}

# Says what a status means that the program ends with in silence, or with the usage line alone.
explain() {
    status=$1
    shift
    case $status in
    1) why="memory ran out" ;;
    2) why="these words are none of the commands" ;;
    4) why="reading the input failed" ;;
    5) why="writing the output failed" ;;
    6) why="loading a file, or changing the log file, failed" ;;
    7) [ "${1:-}" != mend2 ] || tell_of_mend2 "$@" && return ;;
    *) return ;;
    esac
    page="$pages/operators.md, \"After each status\"" files=
    [ "$status" != 2 ] || page="$name --help, and $pages/language.md, \"Commands\""
    case "$status ${1:-}" in
    '6 commit' | '6 snapshot' | '6 plan' | '6 cms' | '6 on') files=${2:-} ;;
    '6 mend2') files="${2:-} or ${3:-}" ;;
    '6 replay') files=${*#replay} && files=${files# } ;;
    esac
    echo "tcm: status $status: $why${files:+ ($files)}; see $page" >&2
    [ "$status ${1:-}" != '6 on' ] || [ ! -f "$2" ] || tell_of_disk "$@"
}
