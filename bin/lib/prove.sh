# Finds the program of a clone, or proves and builds it.

# Shows one line of progress: on a terminal in the place of the last one, elsewhere only at a crate's first function.
show() {
    if [ -t 2 ]; then
        printf '\r\033[Ktcm: %s; functions proved: %s' "$1" "$2" >&2
    elif [ "$2" = 1 ]; then
        printf 'tcm: %s\n' "$1" >&2
    fi
}

# Passes on what rt says. A line `fn CRATE::NAME: proved` comes for each function; rt proves the crates in turn, the
# lowest first, and doesn't prove a crate again that has not changed.
watch() {
    number=0 proving=
    while IFS= read -r line; do
        printf '%s\n' "$line"
        case $line in 'fn '*': proved') ;; *) continue ;; esac
        crate_of=${line#fn } && crate_of=${crate_of#<} && crate_of=${crate_of%%::*}
        if [ "$crate_of" != "$proving" ] && [ -d "$top/crates/$crate_of" ]; then
            proving=$crate_of number=$((number + 1)) functions=0
        fi
        functions=$((functions + 1))
        show "crate $number of $most$crates, $proving" "$functions"
    done
    [ ! -t 2 ] || printf '\r\033[K' >&2
}

# Says what to do where nothing can be proved.
no_rt() {
    if [ -e "$top/dist/tcm" ]; then
        echo "tcm: dist/tcm is of other sources than these, and rt, which proves and builds these, isn't on the PATH" >&2
        echo "tcm: go back to sources that fit (git status, git log -- dist), or install the toolchain of the README" >&2
    else
        echo "tcm: there is no dist/tcm, and rt, which proves and builds the program, isn't on the PATH" >&2
        echo "tcm: check out a commit that has dist/, or install the toolchain that the README names" >&2
    fi
}

# `rt run` builds a program and runs it: here without words or input, so that it prints its usage alone.
build() {
    crate=$top/crates/tcm_program
    built=$crate/out/tcm_program log=$crate/out/build.log
    command -v rt >/dev/null || { no_rt && return 1; }
    crates=$(grep -c '^[a-z]' "$top/crates.txt")
    most=$(ls "$top"/crates/*/out/rlib/stamp 2>/dev/null | head -n 1) && most=${most:+at most }
    printf '%s\n' "tcm: the program is being proved and built: half an hour or more on four processors at first" \
        "tcm: later only what has changed is proved again" >&2
    mkdir -p "$crate/out" && rm -f "$built"
    (cd "$crate" && rt run </dev/null 2>&1 >/dev/null) | watch >"$log"
    [ -x "$built" ] && return
    grep -v ': proved$' "$log" | tail -n 40 >&2
    echo "tcm: the build failed, and $log has what it said" >&2
    return 1
}

# Says in `program` which program runs: dist/tcm if it is of these sources, else the one that was built here.
find_program() {
    program=$top/dist/tcm
    [ -n "$prove" ] || "$top/bin/release" --fits
    case $?$prove in
    0) return ;;
    1 | 0yes) ;;
    *) die "bin/release --fits didn't tell whether dist/tcm is of these sources" ;;
    esac
    program=$top/crates/tcm_program/out/tcm_program
    [ -z "$prove" ] && "$top/bin/release" --is-built || build
}
