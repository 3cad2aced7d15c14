# One writer for each file. `lock_for PATH KIND` takes exclusive locks (flock) for a run that writes PATH, a `log`, a
# `disk` or a `new` file, on descriptors that the program inherits: they last until it has ended, however it ends. Nothing
# is written for a lock.
#
# A program replaces a log that is absent, or that has no line feed at its end, by rename. A lock on such a file says
# nothing of the next one, so there the folder is locked. The program then runs once without input: this makes the file,
# or cuts it, as the run itself does first. From there on the file is locked alone, and others may begin in the folder.
#
# TCM_LOCK_FDS names descriptors of a caller that has locks already, such as 5,6: they count if they are of these files.

ours=            # descriptors that were opened here
theirs=          # descriptors of the caller
[ -z "${TCM_LOCK_FDS:-}" ] || theirs=$(printf %s "$TCM_LOCK_FDS" | tr -c 0-9 ' ')
busy=75          # the status of flock if another process has the lock
tries=0          # how often it was looked whether the other process has ended: ten times a second, five for a folder
longest=25       # tries for a process that only begins in this folder

# Prints the resolved path of a file and then x, since a name may end with a line feed. Fails if its folder is absent.
resolved() {
    readlink -fn -- "$1" && echo x
}

# Opens PATH as a free descriptor, `fd`.
open_free() {
    for fd in 9 8 7 6 5 4 3; do
        case " $ours " in *" $fd "*) continue ;; esac
        [ -e "/proc/self/fd/$fd" ] || { eval "command exec $fd<\"\$1\"" 2>/dev/null; return; }
    done
    die "$path: the descriptors 3 to 9 are all in use, so none is left for a lock"
}

# Takes the lock of PATH within SECONDS; `fd` is its descriptor.
hold() {
    for fd in $ours $theirs; do
        [ "/proc/self/fd/$fd" -ef "$1" ] && { flock -E "$busy" -n "$fd" 2>/dev/null; return; }
    done
    open_free "$1" || return 1
    flock -E "$busy" -w "$2" "$fd" 2>/dev/null && ours="$ours $fd" && return
    set -- $?
    eval "exec $fd<&-"
    return "$1"
}

# Lets go of all locks that were taken here but that of the descriptor KEPT.
let_go() {
    for fd in $ours; do
        [ "$fd" = "${1:-}" ] || eval "exec $fd<&-"
    done
    ours=${1:-}
}

# Tells who has the lock of a file, if the system tells it.
holder() {
    inode=$(stat -Lc %i -- "$1")
    found=$(grep -ls "^lock:.*FLOCK.*:$inode 0 EOF" /proc/[0-9]*/fdinfo/* | head -n 1)
    pid=${found#/proc/} && pid=${pid%%/*}
    [ -z "$pid" ] || echo ", process $pid ($(tr '\0' ' ' <"/proc/$pid/cmdline" | cut -c 1-100 | sed 's/ *$//'))"
}

# Waits a moment without locks after one wasn't had, or ends: STATUS, what the other process does, the file, most tries.
refused() {
    [ "$1" = "$busy" ] ||
        die "$path: $3 can't be read, or its file system has no locks." \
            "Make sure that no other process writes the file, and say --no-lock first"
    let_go
    tries=$((tries + 1))
    [ "$tries" -le "$4" ] && sleep 0.1 && return
    die "$path: another process $2$(holder "$3"). Wait until it has ended, or say --wait SECONDS first"
}

# Takes the locks of the folder of the resolved path, and of the folder of a link, which the program may replace.
hold_folders() {
    folder=${real%/*}/
    hold "$folder" 0.1 || return
    [ ! -L "$path" ] && return
    case $path in */*) folder=${path%/*}/ ;; *) folder=. ;; esac
    hold "$folder" 0.1
}

# Whether the file stays in its place: it needs no rename.
is_settled() {
    case $kind in
    log) [ -s "$real" ] && [ "$(tail -c 1 -- "$real" | wc -l)" -eq 1 ] ;;
    disk) [ -e "$real" ] ;;
    *) false ;;
    esac
}

# Runs the program without input, so that the file is there and whole.
settle() {
    settled=yes
    case $kind in
    log) "$program" commit "$path" "$cluster" ;;
    disk) "$program" on "$path" commit ;;
    esac </dev/null >/dev/null 2>&1
}

lock_for() {
    path=$1 kind=$2 settled=
    [ $((wait * 5)) -lt "$longest" ] || longest=$((wait * 5))
    while :; do
        real=$(resolved "$path")
        case $? in
        0) real=${real%x} ;;
        1) return 0 ;; # (no folder: the program says what is wrong)
        *) die "$path: readlink didn't end by itself, so nothing was run" ;;
        esac
        [ ! -e "$real" ] || { [ -f "$real" ] && [ -r "$real" ]; } || return 0 # (so here)
        hold_folders || { refused $? "makes a file in its folder" "$folder" "$longest"; continue; }
        if [ -e "$real" ]; then
            hold "$real" 0 || { refused $? "writes this file" "$real" $((wait * 10)); continue; }
            [ "/proc/self/fd/$fd" -ef "$path" ] || { let_go; continue; }
        else
            [ "$(resolved "$path")" = "${real}x" ] || { let_go; continue; }
        fi
        look_at "$path" "$kind"
        is_settled && { let_go "$fd"; return; }
        [ "$kind" != new ] && [ -z "$settled" ] && settle || return 0
    done
}
