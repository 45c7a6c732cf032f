# What the commands at the root share: a proved program is built where it is missing or older than its sources, and run.
# Sourced, with `command` set to the command's name and `root` to the repository's folder.
#
# Whatever a command starts runs in the background while it waits, so that a signal ends both: `child` is the process, or
# with a minus the group, that is at work, and `kept` the folder with what is kept for a moment.
unset CDPATH
child='' kept=''
tidy() {
    [ -z "$child" ] || kill -s TERM -- "$child" 2>/dev/null
    [ -z "$kept" ] || rm -rf "$kept"
}
trap tidy EXIT
trap 'exit 129' HUP
trap 'exit 130' INT
trap 'exit 143' TERM

say() { printf '%s: %s\n' "$command" "$*" >&2; }
quit() { say "$@"; exit 2; }

needs() { # TOOL...
    missing=''
    for tool in "$@"; do command -v "$tool" >/dev/null 2>&1 || missing="$missing $tool"; done
    [ -z "$missing" ] || quit "needed and not on the PATH:$missing"
}

# A file's name so that it stays on its line: a backslash, a newline and a carriage return are written \\, \n and \r, as
# sha256sum writes them. `mark` is a backslash where that changed the name, and stands first on such a line.
newline='
'
return=$(printf '\r')
escape() { # NAME: sets `shown` and `mark`
    shown=$1 mark=''
    case $1 in *\\* | *"$newline"* | *"$return"*) ;; *) return ;; esac
    rest=$1 shown='' mark='\'
    while [ -n "$rest" ]; do
        tail=${rest#?}
        case ${rest%"$tail"} in
        \\) shown="$shown\\\\" ;;
        "$newline") shown="$shown\\n" ;;
        "$return") shown="$shown\\r" ;;
        *) shown="$shown${rest%"$tail"}" ;;
        esac
        rest=$tail
    done
}

# Whether the program is there and no older than the sources of its crates.
current() { # CRATE...
    [ -x "$program" ] || return 1
    for crate in "$@"; do
        top=$root/crates/$crate
        [ ! -d "$top" ] || find "$top" -path "$top/out" -prune -o -type f -newer "$program" -print
    done | head -n 1 | grep -q . && return 1
    return 0
}

# Says which crates were proved since it was last called. What rt kept of an earlier build is not proved again, and not named.
progress() {
    proved=$(sed -n -e '/^crate [A-Za-z0-9_]*: /{s/^crate \([A-Za-z0-9_]*\):.*/\1/;h;}' -e '/^logic=proved/{x;p;}' "$log")
    now=$(printf '%s' "$proved" | grep -c .)
    while [ "$told" -lt "$now" ]; do
        told=$((told + 1))
        say "proved $told of at most $total: $(printf '%s\n' "$proved" | sed -n "${told}p")"
    done
}

# Proves and builds the program. One build at a time: who comes second waits, and finds the program built.
build() { # CRATE...
    needs rt flock setsid
    mkdir -p "$root/target" 2>/dev/null && [ -w "$root/target" ] ||
        quit "the program is not built yet, or is older than its sources, and it cannot be built here: $root/target cannot be written"
    exec 9>>"$root/target/.building" || exit 2
    flock -n 9 || { say "another build is at work here: waiting for it"; flock 9; }
    if current "$@"; then exec 9>&-; return; fi
    # a log of this build alone, so that nothing of an earlier one is taken for it
    log=$(mktemp "$root/target/$command-XXXXXX.log") || quit "no log can be written in $root/target"
    say "the program is proved and built first; this takes some minutes"
    total=$# told=0
    # (rt run makes the program and runs it once: here on no input, and what it prints is not looked at)
    setsid sh -c 'cd "$1" && exec rt run' build "$root/crates/$name" >"$log" 2>&1 </dev/null 9>&- &
    child=-$!
    while kill -0 "${child#-}" 2>/dev/null; do progress; sleep 1; done
    wait "${child#-}"
    built=$?
    child=''
    progress
    [ $built -eq 0 ] || { tail -n 20 "$log" >&2; quit "the program is not proved or not built: $log has what rt said"; }
    [ -x "$program" ] || quit "rt run left no crates/$name/out/$name: $log has what rt said"
    touch "$program"
    rm -f "$log"
    exec 9>&-
}

# Finds the program NAME, made of itself and the crates after it.
prepare() { # NAME CRATE...
    name=$1
    program=$root/crates/$name/out/$name
    machine=$(uname -m)
    case $machine in
    x86_64 | amd64) ;;
    *) quit "this computer is $machine, and the program is for x86-64 alone" ;;
    esac
    current "$@" || build "$@"
    kept=$(mktemp -d) || quit "there is no room for what is kept for a moment"
}

# Whether a file descriptor is open for reading.
opened() { # NUMBER
    eval "true 8<&$1" 2>/dev/null
}

# Runs the program over file descriptor 3, closed where that is, and sets `answer` to what it wrote.
run() {
    (
        if opened 3; then exec <&3; else exec <&-; fi
        exec "$program"
    ) >"$kept/answer" &
    child=$!
    wait "$child"
    child=''
    answer=$(cat "$kept/answer")
}

# Whether a file can be read; says why not. Expects its name escaped.
readable() { # FILE
    if [ ! -e "$1" ]; then
        say "$shown: there is no such file"
    elif [ ! -r "$1" ]; then
        say "$shown: it may not be read"
    else
        return 0
    fi
    return 1
}
