#!/bin/sh
# Runs a program of this repository with the given words, over this shell's input and output, or only builds it:
#
#     tools/run.sh NAME [WORD ..]
#     tools/run.sh --build NAME
#
# The first time, and where its sources or those of a library that it uses have changed, the program is proved and built,
# which tells on standard error what it costs and how far it is; it then lies in crates/NAME/out/NAME. The status is the
# program's own (0 where it is only built), or 125 where it could not be built: what went wrong, and a line on what to do,
# stand on standard error then.
set -u
top=$(dirname "$(dirname "$(readlink -f "$0")")")
room=
builder=
shower=
# what the first build of a program takes, where no library of it is proved
cost='about 23 minutes of processor time (some 8 minutes on four cores), up to 4 GB of memory and 2.5 GB of disk'
cost_of_ini_file='about 90 minutes of processor time (some 50 minutes on four cores), up to 8 GB of memory and 2.5 GB of disk'

say() {
    printf '%s\n' "$1" >&2 || true
}

# give_up WHY: there is no program to run
give_up() {
    say "tools/run.sh: $1"
    exit 125
}

# the crates that the program is made of, by the lines of crates.txt: itself, those that it uses, those that they use, ..
crates_of() {
    awk -v name="$1" '
        { sub(/#.*/, ""); colon = index($0, ":") }
        colon && split(substr($0, 1, colon - 1), heads) { uses[heads[1]] = substr($0, colon + 1) }
        END {
            if (name in uses) found[count = 1] = name
            for (i = 1; i <= count; i++) {
                print found[i]
                n = split(uses[found[i]], used)
                for (j = 1; j <= n; j++)
                    if (used[j] in uses && !(used[j] in is_found)) { is_found[used[j]] = 1; found[++count] = used[j] }
            }
        }
    ' "$top/crates.txt"
}

# whether the program is there, and nothing that it is made from is newer: no file, and no folder that lost or got one
is_built() {
    [ -x "$program" ] || return 1
    (
        cd "$top/crates" || exit 1
        set --
        for crate in $crates; do
            for part in src specs proofs; do
                if [ -d "$crate/$part" ] || [ "$part" = src ]; then set -- "$@" "$crate/$part"; fi
            done
        done
        newer=$(find "$@" \( -name tests -o -name tests.rt \) -prune -o -newer "$program" -print 2>&1)
        [ -z "$newer" ]
    )
}

# tells at once what would end the build later
look_ahead() {
    command -v rt >/dev/null || give_up "$name is not built, and there is no command rt to build it: put the Rattle kit's bin in PATH"
    for crate in $crates; do
        folder=$top/crates/$crate
        [ -d "$folder/src" ] || give_up "$name is not built, and there is no folder crates/$crate/src, which crates.txt asks for"
        if [ -d "$folder/out" ]; then folder=$folder/out; fi
        [ -w "$folder" ] || give_up "$name is not built, and $folder can't be written to: build it in a copy of your own"
    done
}

# interrupted SIGNAL: ends the build, and leaves neither its log nor a program that may be half written
interrupted() {
    trap '' HUP INT TERM
    for child in $builder $shower; do
        kill "$child" 2>/dev/null
    done
    wait
    rm -f "$program"
    rm -rf "$room"
    trap - "$1" EXIT
    kill -s "$1" $$
}

# keeps what the build says, and shows how far it is
show() {
    while IFS= read -r line || [ -n "$line" ]; do
        printf '%s\n' "$line" >>"$room/log"
        case $line in 'so far:'* | checked* | 'rt: chose'*) say "$line" ;; esac
    done
}

# Proves and builds the program. Its time is then that of the build's start, so that a file that was changed meanwhile is newer.
build() {
    look_ahead
    case $program in */ini_file) cost=$cost_of_ini_file ;; esac
    say "building $program: each function is proved first, which the first time takes $cost"
    for signal in HUP INT TERM; do
        # shellcheck disable=SC2064
        trap "interrupted $signal" "$signal"
    done
    trap 'rm -rf "$room"' EXIT
    { room=$(mktemp -d) && : >"$room/log" && : >"$room/start" && mkfifo "$room/said"; } ||
        give_up "$name is not built, and there is no room for its log: set TMPDIR to a folder that can be written to"
    # the run that builds it: an empty text to format, the version, no questions, or an empty file
    case $name in ini_tool) word=fmt ;; ini_file) word=--version ;; ini_replay) word=calls ;; *) word=/dev/null ;; esac
    (cd "$top/crates/$name" && TMPDIR=$room && export TMPDIR && exec rt run -- "$word") </dev/null >"$room/said" 2>&1 &
    builder=$!
    show <"$room/said" &
    shower=$!
    wait "$builder"
    status=$?
    wait "$shower"
    if [ "$status" -ne 0 ] || ! [ -x "$program" ]; then
        cat "$room/log" >&2
        give_up "$name could not be built: mend what is reported above, and run it again"
    fi
    touch -r "$room/start" "$program"
    rm -rf "$room"
    trap - HUP INT TERM EXIT
}

is_run=yes
if [ "${1-}" = --build ]; then
    is_run=no
    shift
fi
[ $# -gt 0 ] || give_up 'which program? tools/run.sh NAME [WORD ..], or tools/run.sh --build NAME'
name=$1
shift
[ "$is_run" = yes ] || [ $# -eq 0 ] || give_up 'words for a program that is only built: tools/run.sh --build NAME'
program=$top/crates/$name/out/$name
crates=$(crates_of "$name")
{ [ -n "$crates" ] && [ -f "$top/crates/$name/src/main.rt" ]; } || give_up "$name is no program of crates.txt"
is_built || build
[ "$is_run" = no ] || exec "$program" "$@"
