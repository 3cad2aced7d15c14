# Looks at a file before a run writes it: a slip in a name must not cost a file.

line_feed='
'

is_disk() {
    case $(od -An -tu1 -N1 -- "$1" | tr -d ' ') in 0 | 1) ;; *) false ;; esac
}

is_log() {
    head -c 4096 -- "$1" | head -n 1 | grep -q '^{.*"\(cluster\|entry\)"'
}

# Whether a text is a header, or the beginning of one.
begins_a_header() {
    case '{"cluster":"' in "$1"*) return 0 ;; esac
    rest=${1#'{"cluster":"'}
    [ "$rest" != "$1" ] || return
    tail=${rest#"${rest%%'"'*}"}
    case ${rest%"$tail"} in *[!A-Za-z0-9_.-]*) return 1 ;; esac
    case '","format":2}' in "$tail"*) ;; *) false ;; esac
}

has_a_line() {
    [ "$(head -c 100 -- "$1" | wc -l)" -gt 0 ] || [ "$(wc -l <"$1")" -gt 0 ]
}

# Ends if a file that is to be a disk is none, or one that is to be a log is a disk or would be overwritten.
look_at() {
    [ -n "$look" ] && [ -s "$1" ] || return 0
    case "$2 $(head -c 100 -- "$1" 2>/dev/null)$line_feed" in
    'log {"cluster":"'*'","format":2}'"$line_feed"*) return 0 ;;
    esac
    case $2 in
    disk)
        is_disk "$1" && return
        ! is_log "$1" || die "$1: this is a log, and no disk. $name commit $1 CLUSTER goes on with it;" \
            "$name disk put DISK LOG < $1 puts it on a disk"
        die "$1: this is no disk, and a run would overwrite it. Take another name, or say --as-is first"
        ;;
    log)
        ! is_disk "$1" || die "$1: this is a disk, and no log. $name disk list $1 shows its logs;" \
            "$name on $1 commit LOG CLUSTER goes on with one"
        has_a_line "$1" || begins_a_header "$(head -c 100 -- "$1" | tr '\0' '?')" ||
            die "$1: this is no log, and a run would overwrite it. Take another name, or say --as-is first"
        ;;
    esac
}
