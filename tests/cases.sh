# What the scripts of this folder share; each reads it first. It makes a folder for the run ($room), keeps the counts, and has
# the words by which cases are reported. A script ends with `finish`.
# shellcheck shell=sh
set -u
LC_ALL=C
export LC_ALL
top=$(cd "$(dirname "$0")/.." && pwd)
room=$(mktemp -d)
trap 'chmod -R u+w "$room"; rm -rf "$room"' EXIT
passed=0
failed=0

# program_of NAME FILE: the file, or where none is named the program as it is built
program_of() {
    if [ -n "$2" ]; then
        readlink -f "$2"
    else
        "$top/tools/run.sh" --build "$1" >&2 && echo "$top/crates/$1/out/$1"
    fi
}

# has TOOL WHAT: whether the tool is there; if not, what is skipped is reported
has() {
    command -v "$1" >/dev/null 2>&1 && return 0
    echo "skipped: $2, since $1 isn't there"
    return 1
}

# is NAME WANTED HAD: whether these are the same
is() {
    if [ "$2" = "$3" ]; then
        passed=$((passed + 1))
    else
        failed=$((failed + 1))
        printf 'FAILED: %s\nwanted: %s\nhad: %s\n' "$1" "$(echo "$2" | head -c 2000)" "$(echo "$3" | head -c 2000)"
    fi
}

# count NAME: whether $room/have is what is wanted, $room/want; if not, says where they differ
count() {
    if cmp -s "$room/want" "$room/have"; then
        passed=$((passed + 1))
    else
        failed=$((failed + 1))
        echo "FAILED: $1"
        diff "$room/want" "$room/have" | head -n 20
    fi
}

# at_most NAME COUNT BOUND: whether a count of instructions, in thousands, is a number and within its bound
at_most() {
    if [ -n "$2" ] && [ -n "$3" ] && [ "$2" -gt 0 ] && [ "$2" -le "$3" ]; then
        passed=$((passed + 1))
    else
        failed=$((failed + 1))
        echo "FAILED: $1: ${2:-no count} thousand instructions, and at most ${3:-none} are wanted"
    fi
}

# ends NAME STATUS OUTPUT ERRORS WORD..: a run of $program on these words; the output is a format of printf
ends() {
    name=$1
    { printf -- "$3"; printf '%s\n' "$4" "status $2"; } >"$room/want"
    shift 4
    "$program" "$@" >"$room/out" 2>"$room/err"
    status=$?
    { cat "$room/out"; printf '%s\n' "$(cat "$room/err")" "status $status"; } >"$room/have"
    count "$name"
}

# fresh: a folder with one file, `settings.ini`, of $source, in which the next case runs
fresh() {
    cd "$room" || exit 1
    chmod -R u+w case 2>/dev/null
    rm -rf case
    mkdir case
    cd case || exit 1
    printf "$source" >settings.ini
}

# run NAME COMMAND..: whether the command ends well, and the last line that it wrote; if not, the end of it ($room/log)
run() {
    name=$1
    shift
    if "$@" >"$room/log" 2>&1; then
        passed=$((passed + 1))
        last=$(tail -n 1 "$room/log")
        printf '%s: %s\n' "$name" "${last:-done}"
    else
        failed=$((failed + 1))
        echo "FAILED: $name"
        tail -n 40 "$room/log"
    fi
}

# finish: the last line, and the status
finish() {
    echo "$passed passed, $failed failed"
    [ "$failed" -eq 0 ]
    exit
}
