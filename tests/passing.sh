#!/bin/sh
# Runs the built program over long texts that go by: comments, empty lines and white space between few items, under a bound on
# its memory, and tells whether what it writes and where it stops are as they are for short ones. Each case that fails is reported.
# The last line is 'N passed, M failed', and the status is 1 if a case failed.
#
#     tests/passing.sh [INI_TOOL]
#
# INI_TOOL is by default the program that tools/run.sh builds.
. "$(dirname "$0")/cases.sh"
program=$(program_of ini_tool "${1:-}") || exit 1

# bounded KILOBYTES WORD..: runs the program in that much memory
bounded() {
    (
        ulimit -v "$1" || exit 125
        shift
        exec "$program" "$@"
    )
}

# what the program itself takes, by steps of a megabyte, and 20 MB more
own=2000
while ! bounded "$own" fmt </dev/null >/dev/null 2>&1; do
    own=$((own + 1000))
    if [ "$own" -gt 200000 ]; then
        echo "the program doesn't run in 200 MB"
        exit 1
    fi
done
bound=$((own + 20000))

# short NAME STATUS OUTPUT ERROR: runs fmt over standard input within the bound, by the options; output and error are those of
# printf's %b
options=
short() {
    bounded "$bound" $options fmt >"$room/out" 2>"$room/err"
    {
        echo "status $?"
        cat "$room/out"
        echo "told: $(cat "$room/err")"
    } >"$room/have"
    {
        printf 'status %s\n%b' "$2" "$3"
        printf 'told: %b\n' "$4"
    } >"$room/want"
    if cmp -s "$room/want" "$room/have"; then
        echo passed >>"$room/cases"
    else
        echo failed >>"$room/cases"
        echo "FAILED: $1"
        diff "$room/want" "$room/have" | head -n 20
    fi
}

# lines COUNT LINE: the line so many times
lines() {
    yes "$2" | head -n "$1"
}

# a comment of a megabyte
{
    printf ';'
    head -c 1000000 /dev/zero | tr '\0' x
    echo
} >"$room/long"

# Of 200 MB each. The last line may be cut short.
yes '; a comment that says nothing' | head -c 200000000 | short 'comments' 0 '' ''
yes '' | head -c 200000000 | short 'empty lines' 0 '' ''
yes "$(printf ' \t \r')" | head -c 200000000 | short 'lines of white space' 0 '' ''
i=0
while [ "$i" -lt 200 ]; do
    cat "$room/long"
    i=$((i + 1))
done | short 'comments of a megabyte' 0 '' ''

# between few items
{
    printf 'k=v\n'
    lines 8000000 '; no'
    printf '[a]\n'
    lines 8000000 ''
    printf '  x = y\n'
    lines 4000000 '# no'
    printf 'z : "w\n"\n'
    lines 4000000 '   '
} | short 'items far apart' 0 'k=v\n\n[a]\nx=y\nz=w\\n\n' ''

# 4,000,000 lines, and the line after them is refused
{
    lines 4000000 '; no'
    printf '=v\n'
} | short 'a missing key' 3 '' 'ini_tool: 4000001:2 missing key'
{
    lines 2000000 '; no'
    printf 'k=v\n'
    lines 1999999 ''
    printf '  k=v ; no\n  ; no=1\n'
    printf '\n\nkey'
} | short 'a text that is cut short' 3 '' 'ini_tool: 4000005:4 expecting "[Some('"'='"'), Some('"':'"')]" but found EOF.'
{
    lines 4000000 '; no'
    printf 'k=v\n\r; no\n'
} | short 'a comment after CR' 3 '' "ini_tool: 4000002:3 doesn't support inline comment"
{
    lines 4000000 '; no'
    printf 'k=\303'
} | short 'bytes that are no text' 3 '' 'ini_tool: the input is not UTF-8'

# comments that options allow, indented and after other white space
options='--indented-comments --inline-comments'
yes '  ; a comment that says nothing' | head -c 200000000 | short 'indented comments' 0 '' ''
yes "$(printf '\v# a note that says nothing')" | head -c 200000000 | short 'notes after white space' 0 '' ''
{
    printf 'k=v ; no\n[a] ; no\n'
    lines 4000000 '  ; no'
    printf 'x = y # no\n\r; no\n=v\n'
} | short 'a missing key after notes' 3 '' 'ini_tool: 4000005:2 missing key'

passed=$(grep -c passed "$room/cases")
failed=$(grep -c failed "$room/cases")
finish
